"""Names in backquotes that documents use and no source has."""

# Of the original crate, as what is left out here or has another form.
ORIGINAL = {"Arbitrary", "Buf", "BufMut", "Channel", "IoBuf", "IoBufs", "Muxer", "Releaser"}
# Of Rust's own library.
STD = {"mem::forget"}

NAMES = ORIGINAL | STD

# What commands make, and where a user installs a release. Each stands for all below it, too.
PATHS = ("dist/", "out/", "PREFIX/")


def has_path(name):
    return any(name.startswith(path) for path in PATHS)
