"""Finders: `leak`, `timer`, `window`, and `inputs` and `races` in their own subpackages."""
