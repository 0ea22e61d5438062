# Builds the original shell, with and without its feature fs. Scripts read this file in, and stand at the top of the repository.

built=target/compare

compile() {
    rustc --edition 2024 -O -L "dependency=$built" "$@"
}

# rlib NAME FILE WORDS..: a Rust library, libNAME.rlib. The WORDS go to rustc.
rlib() {
    name=$1
    file=$2
    shift 2
    compile --crate-type rlib --crate-name "$name" --out-dir "$built" "$file" "$@"
}

# original NAME WORDS..: the original's four files as they are, among the stand-ins.
original() {
    name=$1
    shift
    rlib "$name" "$built/original/lib.rs" --cap-lints allow --extern "axstd=$built/libaxstd.rlib" \
        --extern "forest=$built/libforest.rlib" --extern "lazy_static=$built/liblazy_static.rlib" \
        --extern "log=$built/liblog.rlib" "$@"
}

# over_original NAME FILE WORDS..: a program over the original, in both its forms. The WORDS go to rustc.
over_original() {
    name=$1
    file=$2
    shift 2
    compile --crate-type bin --crate-name "$name" -o "$built/$name" "$file" \
        --extern "axstd=$built/libaxstd.rlib" --extern "forest=$built/libforest.rlib" \
        --extern "original=$built/liboriginal.rlib" --extern "original_fs=$built/liboriginal_fs.rlib" "$@"
}

# answers NAME FOLDER: builds compare/NAME.rs and lets it write the stored input and answers into the folder.
answers() {
    over_original "$1" "compare/$1.rs"
    "$built/$1" "$2"
}

rm -rf "$built/original"
mkdir -p "$built/original/shell/command/vm"
for file in shell/mod.rs shell/command/mod.rs shell/command/history.rs shell/command/base.rs; do
    cp "docs/src/src/$file" "$built/original/$file"
    cmp "docs/src/src/$file" "$built/original/$file"
done
cp compare/original/lib.rs "$built/original/lib.rs"
cp compare/original/vm.rs "$built/original/shell/command/vm.rs"
cp compare/original/handlers.rs "$built/original/shell/command/vm/handlers.rs"
cp compare/original/planted.rs "$built/original/shell/command/vm/planted.rs"
cp compare/original/tree.rs "$built/original/shell/command/vm/tree.rs"

rlib forest compare/forest/lib.rs
rlib axstd compare/original/axstd/lib.rs
rlib lazy_static compare/original/lazy_static.rs
rlib log compare/original/log.rs
original original
original original_fs --cfg 'feature="fs"'
