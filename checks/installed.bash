# What checks share: read by `source`. A check stands in a file of its own name, which its faults begin with.

# A Mac takes an image without these words for one of iOS.
macos=(-platform_version macos 14.0 14.0)

fail() {
    echo "$(basename "$0" .sh): $1" >&2
    exit 1
}

# An installed tool by its name, with or without a version behind it.
tool() {
    for name in "$1" "$1"-{14..23}; do
        command -v "$name" && return
    done
    return 1
}
