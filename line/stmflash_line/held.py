"""Bytes as an open file, without a place on a disk."""

import os


def hold(data):
    """The descriptor of such a file."""
    held = os.memfd_create("held")
    with open(held, "wb", closefd=False) as file:
        file.write(data)
    return held
