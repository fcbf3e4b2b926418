# How the scripts write files: whole or not at all, over nothing but an older image of their sort.

import os
import stat
import sys
import tempfile

from words import BOOK_HEADER, COULD_NOT, USAGE, Stop, looks_like_chart, number32, read_input

# How much of a file tells which image it is.
HEAD = 24


def image_sort(data):
    """Which image the bytes begin like, by their offsets: 'chart', 'book', or None."""
    if looks_like_chart(data):
        return 'chart'
    return 'book' if len(data) >= HEAD and number32(data, 20) == BOOK_HEADER else None


def is_plain(path):
    """Whether it is a file as one keeps it, no folder, pipe or device."""
    try:
        return stat.S_ISREG(os.stat(path).st_mode)
    except (OSError, ValueError):
        return False


def is_image(path, sort):
    return is_plain(path) and image_sort(read_input(path, HEAD)) == sort


def stands(path, sort):
    """Whether an older image is there; one that may not be read stands, too."""
    try:
        return is_image(path, sort)
    except Stop:
        return True


def same(one, other):
    try:
        return os.path.samefile(one, other)
    except (OSError, ValueError):
        return os.path.realpath(one) == os.path.realpath(other)


def check_place(text):
    """An image stands beside its text, and beside a pipe or a device there is no place for one."""
    named = os.path.dirname(os.path.abspath(text)) in ('/dev', '/dev/fd', '/proc/self/fd')
    if named or os.path.exists(text) and not os.path.isdir(text) and not is_plain(text):
        raise Stop(USAGE, '%s is no plain file, so there is no place beside it for an image' % text)


def check_target(target, sort):
    """An image takes the place of nothing, of an empty file or of an older image of its sort."""
    if not os.path.basename(target):
        raise Stop(USAGE, '"%s" is no name for a file' % target)
    if os.path.isdir(target):
        raise Stop(USAGE, '%s is a directory, not a file' % target)
    if os.path.lexists(target) and not is_image(target, sort) and not (is_plain(target) and os.path.getsize(target) == 0):
        raise Stop(USAGE, '%s is there and is no %s image, so it is left as it is' % (target, sort))


def write(path, data):
    """Puts the bytes into a new file beside the path, which then takes its name."""
    place, new = os.path.realpath(path), None
    try:
        handle, new = tempfile.mkstemp(prefix='.ozhimka-', dir=os.path.dirname(place))
        with open(handle, 'wb') as target:
            target.write(data)
        os.chmod(new, mode_for(place))
        os.replace(new, place)
        new = None
    except (OSError, ValueError) as fault:
        raise Stop(COULD_NOT, '%s cannot be written: %s' % (path, getattr(fault, 'strerror', None) or fault)) from None
    finally:  # also where it is interrupted
        if new is not None and os.path.exists(new):
            os.remove(new)


def mode_for(path):
    """The rights of the file that is there, or those that a new file gets."""
    if os.path.exists(path):
        return stat.S_IMODE(os.stat(path).st_mode)
    mask = os.umask(0)
    os.umask(mask)
    return 0o666 & ~mask
