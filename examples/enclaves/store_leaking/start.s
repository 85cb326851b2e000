# The entry code of two hosts: the same as in the example two_harts.
        .include "../two_harts/start.s"
