#!/usr/bin/env bash
# Installs the library that bindings/build.sh built in OUT (bindings/out, unless given): include/clarity.h, lib/libclarity.a and .so,
# and lib/pkgconfig/clarity.pc, in PREFIX, below DESTDIR where that is set. For a PREFIX of the system run ldconfig behind it.
# Usage: bindings/install.sh PREFIX [OUT]
set -eu
usage() {
    sed -n '2,/^[^#]/s/^# \{0,1\}//p' "$0"
}
[ "${1-}" != --help ] || { usage && exit; }
[ $# = 1 ] || [ $# = 2 ] || { usage >&2 && exit 2; }
here=$(cd "$(dirname "${BASH_SOURCE[0]}")" && pwd)
top=$(dirname "$here")
. "$here/common.sh"
version=$(cat "$top/VERSION")
prefix=$(realpath -m "$1")
out=${2-$here/out}
to=${DESTDIR-}$prefix

# What pkg-config says of the library.
package() {
    cat <<END_OF_PACKAGE
prefix=$prefix
libdir=\${prefix}/lib
includedir=\${prefix}/include

Name: clarity
Description: Lumpitseha, the contract engine for Clarity$1
Version: $version
Cflags: -I\${includedir}
Libs: -L\${libdir} -lclarity
END_OF_PACKAGE
}

unproved=
if is_library_kept "$out" unproved; then
    unproved=' (an unproved build)'
elif ! is_library_kept "$out" proved; then
    echo "install.sh: $out has no library of these sources: bindings/build.sh builds it" >&2
    exit 1
fi
install -d "$to/include" "$to/lib/pkgconfig"
install -m 644 "$top/include/clarity.h" "$to/include/"
install -m 644 "$out/libclarity.a" "$to/lib/"
install -m 755 "$out/libclarity.so.$version" "$to/lib/"
for name in "libclarity.so.${version%%.*}" libclarity.so; do
    ln -sf "libclarity.so.$version" "$to/lib/$name"
done
package "$unproved" >"$to/lib/pkgconfig/clarity.pc"
echo "installed in $to$unproved"
