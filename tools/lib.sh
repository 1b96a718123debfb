#!/usr/bin/env bash
# Builds the static library, and puts it with its header and a pkg-config file into a folder: tools/lib.sh [FOLDER].
# Where DIMINUREL_BUILT says so, the library is taken as it is.
# The folder may be moved as a whole: the pkg-config file finds the other two from where it stands.
set -eu -o pipefail
top=$(cd "$(dirname "$0")/.." && pwd)
folder=${1:-$top/target/diminurel}
mkdir -p "$folder/include" "$folder/lib/pkgconfig"
[ -n "${DIMINUREL_BUILT:-}" ] || bash "$top/tools/build.sh" diminurel
install -m 644 "$top/include/diminurel.h" "$folder/include/"
install -m 644 "$top/target/staticlib/libdiminurel.a" "$folder/lib/"
cat > "$folder/lib/pkgconfig/diminurel.pc" << END
prefix=\${pcfiledir}/../..

Name: diminurel
Description: The key-management core of a prepayment vending module (STS 600-8-6)
Version: $(sed -n 's/^#define DIMINUREL_VERSION "\(.*\)"$/\1/p' "$top/include/diminurel.h")
Cflags: -I\${prefix}/include
Libs: -L\${prefix}/lib -ldiminurel
END
echo "lib: $folder"
