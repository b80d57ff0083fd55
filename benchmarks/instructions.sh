# For the scripts beside this one, which read it: instructions are counted where valgrind is there. They don't depend on what else
# runs.

# instructions WORD..: how many instructions the program of these words runs, by callgrind
instructions() { valgrind --tool=callgrind --callgrind-out-file=/dev/null "$@" 2>&1 >/dev/null | awk '$2 == "Collected" { print $4 }'; }

counted=
if command -v valgrind >/dev/null; then counted=yes; else echo "valgrind (Debian's package) is not installed, so no instructions are counted"; fi
