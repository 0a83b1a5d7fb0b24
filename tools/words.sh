# The words that rattle takes for a crate, over the libraries that stand in the crates' out/: source this file, and call words_for CRATE in the top folder. It sets
# `kit`, the folder of the toolchain; `below`, the crates that crates.txt names behind CRATE; and `words`, for a call in the crate's folder.
kit=$(dirname "$(rt doc)")

words_for() {
    local root=src/lib.rt kind dep
    [ ! -e "crates/$1/src/main.rt" ] || root=src/main.rt
    read -r kind < <(sed -n "s/^$1\( staticlib\)\{0,1\}:.*/library\1/p" crates.txt)
    read -ra below < <(sed -n "s/^$1\( staticlib\)\{0,1\}://p" crates.txt)
    words=(--crate-name "$1" "$root" --extern "std=$kit/rlibs/std.rlib" -L "dependency=$kit/rlibs" --links "$1=")
    [ "$kind" != "library staticlib" ] || words+=(--crate-type staticlib)
    for dep in "${below[@]}"; do
        if [ -d "crates/$dep" ]; then
            words+=(--extern "$dep=../$dep/out/rlib/$dep.rlib" -L "dependency=../$dep/out/rlib")
        else
            words+=(--extern "$dep=$kit/rlibs/$dep.rlib")
        fi
    done
    words+=(--antt-project "$kit/rattle/logic/antt-project.json" --logic-built "$kit/logic_built" --jobs 1)
}
