"""What a test of runs says where something is not as it should be."""
import sys


def fail(text):
    sys.exit(f"desk_journey.py: {text}")


def same(what, found, want):
    """Two lists, or two texts."""
    if found != want:
        different = next((n for n, (one, other) in enumerate(zip(found, want)) if one != other), min(len(found), len(want)))
        part = slice(different, different + 3)
        fail(f"{what}: {len(found)} found, {len(want)} wanted; number {different + 1} and on are {found[part]}, should be {want[part]}")
