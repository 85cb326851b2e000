"""`inputs`: varies what the host gives an enclave, guided by coverage, and reports what the host can make the enclave do."""
