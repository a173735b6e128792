#!/usr/bin/env bash
# tools/install.sh install PREFIX      puts what `make host` built below PREFIX
# tools/install.sh uninstall PREFIX    removes it again; folders stay
#
# PREFIX is where the files are used from. If DESTDIR is set they are put below $DESTDIR$PREFIX, to be moved later.
set -euo pipefail

# Mode, source, and place below the prefix.
files='
644 host/giangotum.h include/giangotum.h
644 host/giangotum_core.h include/giangotum_core.h
644 target/staticlib/libc_interface.a lib/libgiangotum.a
755 target/bin/listing bin/giangotum-listing
755 target/host/dome bin/giangotum-dome
644 host/man/giangotum-listing.1 share/man/man1/giangotum-listing.1
644 host/man/giangotum-dome.1 share/man/man1/giangotum-dome.1
'
# Made from its template.
package=lib/pkgconfig/giangotum.pc

refuse() { # MESSAGE
    printf 'install.sh: %s\n' "$1" >&2
    exit 1
}

# Calls the action with mode, source and place of each file.
each_file() { # ACTION
    local mode source place
    while read -r mode source place; do
        [ -z "$mode" ] || "$1" "$mode" "$source" "$place"
    done <<<"$files"
}

# Before anything is put, so that a failed installation leaves nothing.
look_for() { # MODE SOURCE PLACE
    [ -f "$2" ] || refuse "there is no $2: run make host"
}

put() { # MODE SOURCE PLACE
    install -d "$(dirname "$root/$3")"
    install -m "$1" "$2" "$root/$3"
}

# The header has the version.
version_number() { # NAME
    sed -n "s/^#define $1 //p" host/giangotum.h
}

put_package() {
    local version
    version=$(version_number GT_VERSION_MAJOR).$(version_number GT_VERSION_MINOR)
    install -d "$(dirname "$root/$package")"
    sed "s|@PREFIX@|$prefix|; s|@VERSION@|$version|" host/giangotum.pc.in | install -m 644 /dev/stdin "$root/$package"
}

take_away() { # MODE SOURCE PLACE
    rm -f "$root/$3"
}

[ $# -eq 2 ] || refuse 'usage: tools/install.sh install|uninstall PREFIX'
prefix=$2
# The prefix stands in a file of pkg-config, where other characters would need quoting.
[[ $prefix =~ ^/[A-Za-z0-9._+~/-]*$ ]] || refuse "PREFIX is an absolute path of letters, digits and ._+~-, not '$prefix'"
[[ ${DESTDIR-} =~ ^(/|$) ]] || refuse "DESTDIR is an absolute path, not '$DESTDIR'"
root=${DESTDIR-}${prefix%/}
cd "$(dirname "$0")/.."

case $1 in
install)
    each_file look_for
    each_file put
    put_package
    ;;
uninstall)
    each_file take_away
    rm -f "$root/$package"
    ;;
*) refuse "neither install nor uninstall: $1" ;;
esac
