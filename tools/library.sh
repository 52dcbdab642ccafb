# Sourced by what makes or needs the compiled library, from the top of the repository, once it has defined `die`.
library_folder=target/staticlib
library=$library_folder/libdoor.a
library_missing="$library is missing: make it with ./library"

need_library() {
    [ -f "$library" ] || die "$library_missing"
}

# The kit names a static library after its crate, which stands over crate `door`; who links it knows it as `door`.
place_library() {
    mkdir -p "$library_folder" && cp crates/door_c/out/libdoor_c.a "$library"
}
