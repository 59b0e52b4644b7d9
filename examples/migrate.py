#!/usr/bin/env python3
"""Migrates a store file that was written before the path order changed, once, before calls resume:

    python3 examples/migrate.py FILE

The package dossier is installed before, by `pip install hosts/python`. It prints the labels of the partitions whose elements it
brought into the order of now, and of those that it left as they were since they were not well formed in the order of before; a
second run leaves those that the first one moved. The file is locked and saved as the command does it: the migrated store comes
by a new file, synced and renamed, so that a crash leaves one of them whole. What is no store is told and not written.
"""
import sys
from typing import List

from dossier import PARTITION_BYTES, Label, Store


def changed(before: bytes, after: bytes) -> List[Label]:
    """The labels of the partitions that are not as they were."""
    parts = [slice(at, at + PARTITION_BYTES) for at in range(0, len(before), PARTITION_BYTES)]
    return [Label.from_number(number) for number, part in enumerate(parts) if before[part] != after[part]]


def listed(labels: List[Label]) -> str:
    """The numbers of labels, or that there are none."""
    return " ".join(map(str, labels)) or "none"


def main() -> None:
    """Migrates the file and says what was done."""
    if len(sys.argv) != 2:
        sys.exit("usage: migrate.py FILE")
    try:
        with Store.open(sys.argv[1]) as store:
            before = bytes(store)
            left = store.migrate().labels()
            moved = changed(before, bytes(store))
    except OSError as error:
        sys.exit(str(error))
    print("brought into the new order:", listed(moved))
    print("left as they were:", listed(left))


main()
