#!/bin/sh
# Compares the words, and the rows, of real pages of man(7), or of mdoc(7), with those that another formatter, installed as `mandoc`, prints
# (bench/manuals.py): the share of pages with the same words, and of those with the same rows, headers and footers left aside.
# With no folder, the pages of some packages are fetched into one that is removed at the end (Debian: apt-get download): of the packages of `man` those of man(7),
# of those of `mdoc` those of mdoc(7), of freebsd-manpages every fourth file in the order of their names.
# usage: bench/run manuals [FOLDER [LISTED [man|mdoc]]]
cd "$(dirname "$0")/.." || exit 1
if [ $# -gt 0 ]; then
    exec python3 bench/manuals.py "$@"
fi
man='bash coreutils curl findutils git-man manpages manpages-dev openssl perl-doc util-linux zsh-common'
mdoc='atf-sh bmake bsdgames cwm dhcpcd-base entr fdm fido2-tools file finger freebsd-manpages heimdal-clients heimdal-dev heimdal-docs heimdal-kdc
    kyua libarchive-dev libarchive-tools libatf-dev libfido2-doc libsndio-dev libtls-dev lowdown makefs mblaze mg mksh mtree-netbsd netcat-openbsd
    openbgpd opendoas openntpd opensmtpd openssh-client openssh-server pax pkgconf rpki-client rwho signify-openbsd sndio-tools sndiod sudo talk
    tnftp unifdef vis'
room=$(mktemp -d) || exit 1
trap 'rm -rf "$room"' EXIT
chmod 755 "$room"
for language in man mdoc; do
    eval "packages=\$$language"
    mkdir "$room/$language" && chmod 777 "$room/$language" || exit 1
    (cd "$room/$language" && apt-get download $packages) > /dev/null || exit 1
    for package in "$room/$language"/*.deb; do
        name=${package##*/}
        mkdir -p "$room/pages/$language/${name%%_*}"
        dpkg-deb --fsys-tarfile "$package" | tar -x -C "$room/pages/$language/${name%%_*}" ./usr/share/man
    done
    if [ "$language" = mdoc ]; then
        find "$room/pages/mdoc/freebsd-manpages" -type f | LC_ALL=C sort | awk 'NR % 4 != 1' | tr '\n' '\0' | xargs -0 rm
    fi
    echo "Pages of $language(7):"
    python3 bench/manuals.py "$room/pages/$language" 20 "$language"
done
