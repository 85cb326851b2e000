"""rvlook, the front end of rvbench: it drives rvbench over a pipe, and derives what it shows from the replies (docs/LOOK.md).

A subpackage imports only itself and those before it in this order, which tests/rvlook/test_static.py checks:

    escapes errors output protocol image build access trace finders symbolic monitors page prompt gdb cli api
"""
