# Copies the crates to a folder, and beside them those of trials/. To be read by `.` in the root of the repository.
# A source of a trial is named X.rattle, and X.rt in the copy: rt ci stops at a file X.rt that no proof reads.

# with_trials FOLDER
with_trials() {
    local room=$1
    mkdir -p "$room/crates"
    tar --exclude=out -cf - crates HANDLES | tar -xf - -C "$room"
    tar --exclude=out --exclude=README.md --exclude=crates.list --transform='s/[.]rattle$/.rt/' -cf - -C trials . | tar -xf - -C "$room/crates"
    cat crates.txt trials/crates.list > "$room/crates.txt"
}
