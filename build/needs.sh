#!/bin/sh
# Reports in one sentence what a target of the Makefile lacks, and fails: build/needs.sh rt python3
kit='rattle-kit-13f, logic dac8208d650f15bf'

lacks() {
    echo "rpg2: this target needs $1; the package of rpg2 needs neither the Rattle kit nor Python (README.md, \"Get it\")" >&2
    exit 1
}

for name in "$@"; do
    case $name in
    rt)
        command -v rt > /dev/null ||
            lacks "the command rt of the Rattle kit ($kit) on your path, on Linux x86-64 with glibc 2.34 or later"
        ;;
    python3)
        python3 -c 'import sys; sys.exit(sys.version_info < (3, 10))' 2> /dev/null ||
            lacks "python3 of version 3.10 or later on your path, and to compile or prove rpg2 the Rattle kit ($kit), on Linux x86-64 with glibc 2.34 or later"
        ;;
    esac
done
