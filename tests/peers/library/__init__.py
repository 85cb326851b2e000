"""The self test of Mbed TLS on the program."""
