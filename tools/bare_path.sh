# Sourced by tests of what a command says where programs are missing.

# Makes a folder for the PATH that has the programs named, and no other.
bare_path() { # FOLDER PROGRAM...
    bare_folder=$1
    shift
    mkdir "$bare_folder"
    for program in "$@"; do
        ln -s "$(command -v "$program")" "$bare_folder/$program"
    done
}
