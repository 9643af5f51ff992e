# The library's LLVM module as text, for c/ and chips/. Sourced in the root of the repository after compare/toolchain.sh.
# FOLDER/module.ll has the functions under the names that FOLDER/tried.c or FOLDER/proved.c calls; c/exports.py writes what
# else is in FOLDER.

# What a module is made of: the kit, what turns its text, and the files of each crate's FOLDERS.
sources() { # FOLDERS
    local folder
    {
        cat "$kit/KIT-ID" c/exports.py chips/parted.py compare/unchecked.py crates.txt
        for folder; do find crates/*/"$folder" -type f -exec sha256sum {} + | sort; done
    } | sha256sum
}

# A repository of our crates' sources and of a program that reaches the library's functions. It stands outside this one, where rt ci
# would take it for more crates; a program rests on no static library, so there the library is one for crates.
reaching() { # FOLDER REPOSITORY
    local crate
    for crate in crates/*; do mkdir -p "$2/$crate" && cp -R "$crate/src" "$2/$crate/"; done
    mkdir -p "$2/crates/reach/src"
    { sed 's/^hitchbriar staticlib:/hitchbriar:/' crates.txt; echo "reach: hitchbriar"; } >"$2/crates.txt"
    cp "$1/reach.txt" "$2/crates/reach/src/main.rt"
}

# The module that rt try makes, which proves nothing and takes seconds; unless it is there already. FOLDER/trapping.ll is the same,
# but where it comes to what a proof shows not to happen, as an index out of bounds, it traps.
tried_module() { # FOLDER
    local stamp made
    stamp=$(sources src)
    [ "$stamp" != "$(cat "$1/stamp" 2>/dev/null)" ] || return 0
    rm -rf "$1"
    python3 c/exports.py "$1" .
    made=$(mktemp -d)
    reaching "$1" "$made"
    module "$made" reach "$made/tried.ll" "$made/trapping.ll" || { rm -rf "$made"; return 1; }
    python3 chips/parted.py <"$made/tried.ll" | sed -f "$1/tried.sed" >"$1/module.ll"
    sed -f "$1/tried.sed" "$made/trapping.ll" >"$1/trapping.ll"
    rm -rf "$made"
    echo "$stamp" >"$1/stamp"
}

# The module that rt lib compiles once all is proved; unless it is there already. With it FOLDER/libhitchbriar.a, rt's own archive.
proved_module() { # FOLDER
    local stamp made
    stamp=$(sources src specs proofs)
    [ "$stamp" != "$(cat "$1/stamp" 2>/dev/null)" ] || return 0
    rm -rf "$1"
    python3 c/exports.py "$1" .
    made=$(mktemp -d)
    keeping_kit "$made/kit" "$made/module.bc"
    # The kit itself proves, and so shares what it proved; the other then compiles the same once more.
    (cd crates/hitchbriar && rt lib && "$made/kit/bin/rt" lib) >"$1/said" 2>&1 || { tail "$1/said" >&2; rm -rf "$made"; return 1; }
    cp crates/hitchbriar/out/libhitchbriar.a "$1/"
    module_text "$made/module.bc" | python3 chips/parted.py | sed -f "$1/proved.sed" >"$1/module.ll"
    rm -rf "$made"
    echo "$stamp" >"$1/stamp"
}
