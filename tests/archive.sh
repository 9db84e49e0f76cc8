# For the scripts that link the library: which archive, and that there is one. Sourced from the repository's root.
own_archive=crates/curlewtable/out/libcurlewtable.a
archive=$own_archive

# Builds the repository's own archive if it is missing, and says so if sources have changed since it was built.
need_archive() {
    if [[ $archive != "$own_archive" ]]; then
        [[ -e $archive ]] || { echo "there is no $archive" >&2; exit 1; }
    elif [[ ! -e $archive ]]; then
        echo "building $archive"
        mkdir -p target
        (cd crates/curlewtable && rt lib --cpu x86-64) >target/lib.log 2>&1 || { tail -n 20 target/lib.log >&2; exit 1; }
    elif [[ -n $(find crates -path '*/src/*' -newer "$archive" -print -quit) ]]; then
        echo "note: crates/ has changed since $archive was built; 'rt lib --cpu x86-64' in crates/curlewtable builds it again" >&2
    fi
}
