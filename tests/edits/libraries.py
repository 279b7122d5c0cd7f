"""The libraries below a crate, as `rt check` or `rt ci` left them, and the work that was kept."""
import os
import shutil

from kit import ROOT, rt


def fault_of(crates):
    """Returns what is wrong with the libraries below these crates, or nothing."""
    below = {it.name: it for crate in crates for it in crate.below()}
    missing = sorted(name for name, it in below.items() if not os.path.isdir(it.rlib))
    if missing:
        return f"no library of {', '.join(missing)}: run rt ci first"
    for name, it in sorted(below.items()):
        if is_old(it):
            return f"the library of {name} is older than its sources: run rt check in crates/{name}"
    return ""


def is_old(crate):
    """Returns whether the library of a crate was made of other sources than those at hand. That of
    `rt check` has a stamp. That of `rt ci` has none, and then a source that was written later
    makes it old. Its folder has the time at which `rt ci` put it there. Its files may be older than
    the sources, since `rt ci` links the files that it kept from an earlier run."""
    stamp = rt.rtlib.text_of(f"{os.path.dirname(crate.rlib)}/stamp")
    if stamp is not None:
        return stamp != crate.stamp()
    made = os.stat(crate.rlib).st_mtime
    return any(os.stat(it).st_mtime > made for it in rt.rtlib.files_of(crate.folder))


def is_proved(crate):
    """Returns whether the library of a crate is one of the sources at hand: only of what is proved
    is a library made."""
    return not crate.is_program and os.path.isdir(crate.rlib) and not is_old(crate)


def kept_of(crate, top):
    """Returns the folder of the work that `rt check` kept of a crate, if there is one: in the
    checkout at top, or else in the one on this machine whose work serves the crate best."""
    own = f"{top}/{os.path.relpath(crate.folder, ROOT)}/{rt.rtlib.KEPT[1]}"
    return own if os.path.isdir(own) else rt.work_for(crate)


def begin(crate, top, to):
    """Copies the work that `rt check` kept into an empty folder. Where that fails, it stays empty.
    Returns whether there is any."""
    kept = kept_of(crate, top)
    if not kept:
        return False
    try:
        os.rmdir(to)
        rt.linked(kept, to)
    except (OSError, shutil.Error):
        shutil.rmtree(to, ignore_errors=True)
        os.makedirs(to)
        return False
    return True
