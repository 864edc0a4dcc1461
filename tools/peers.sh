#!/usr/bin/env bash
# The library for C with the state machines of a widely used supplicant and authenticator: `tools/peers/peers.c`, suites 2, 6 and 4, both
# ends. Their sources are the distribution's package (`apt-get source wpa`), or the folder that WPA names; nothing of them is in this
# repository. Where they cannot be had, or there is no archive or no compiler, one line says so and nothing is tried. It is not in the gate,
# since it fetches.
#
#     tools/peers.sh [FOLDER]        keeps what it fetched and built in FOLDER, and takes it from there
#
# The status is 0 where all was as it should be, or nothing was tried.
folder=${1:-}
case "$folder" in '' | /*) ;; *) folder=$PWD/$folder ;; esac
wpa=${WPA:-}
case "$wpa" in '' | /*) ;; *) wpa=$PWD/$wpa ;; esac
source "$(dirname "$0")/archive.sh"
work=${folder:-$(mktemp -d)}
mkdir -p "$work"
[ -n "$folder" ] || trap 'rm -rf "$work"' EXIT

# The sources, by a list of source packages of its own, so that nothing of the machine is changed.
fetch() {
    command -v apt-get > /dev/null || return 1
    local apt=$work/apt code
    code=$(. /etc/os-release && echo "${VERSION_CODENAME:-}")
    mkdir -p "$apt/lists/partial" "$apt/cache/archives/partial"
    echo "deb-src http://deb.debian.org/debian $code main" > "$apt/sources.list"
    local words=(-qq -o "Dir::Etc::SourceList=$apt/sources.list" -o Dir::Etc::SourceParts=/dev/null -o "Dir::State::Lists=$apt/lists" -o "Dir::Cache=$apt/cache")
    (cd "$work" && apt-get "${words[@]}" update && apt-get "${words[@]}" source --download-only wpa) > "$work/fetched" 2>&1 || return 1
    tar -C "$work" -xf "$work"/wpa_*.orig.tar.*
}
found() { find "$work" -maxdepth 1 -type d -name 'wpa-*' | sort | head -1; }
[ -n "$wpa" ] || wpa=$(found)
if [ -z "$wpa" ]; then
    fetch || skip "the sources of the package wpa cannot be had"
    wpa=$(found)
fi

# The state machines, with the cryptography that comes with them, and no protocol but RSN and fast transition. Its options for testing have
# the call that asks for a new group key at once.
words=(-std=gnu11 -O1 -w -I"$wpa/src" -I"$wpa/src/utils" -Icrates/kehtrop_c -DCONFIG_IEEE80211R -DCONFIG_IEEE80211R_AP -DCONFIG_SHA256
    -DCONFIG_NO_RANDOM_POOL -DCONFIG_CRYPTO_INTERNAL -DCONFIG_NO_RADIUS -DCONFIG_NO_VLAN -DCONFIG_NO_ACCOUNTING -DCONFIG_TESTING_OPTIONS)
files=(utils/{common,eloop,os_unix,wpa_debug,wpabuf} crypto/{aes-internal,aes-internal-enc,aes-internal-dec,aes-ccm,aes-ctr,aes-siv,aes-omac1}
    crypto/{aes-wrap,aes-unwrap,aes-encblock,md5,md5-internal,rc4,sha1,sha1-internal,sha1-prf,sha1-pbkdf2,sha256,sha256-internal}
    crypto/{sha256-prf,sha256-kdf} common/{wpa_common,ieee802_11_common} rsn_supp/{wpa,wpa_ie,wpa_ft}
    ap/{wpa_auth,wpa_auth_ie,wpa_auth_ft,pmksa_cache_auth})
objects=()
for file in "${files[@]}"; do
    object=$work/${file//\//_}.o
    [ -f "$object" ] || cc "${words[@]}" -c "$wpa/src/$file.c" -o "$object"
    objects+=("$object")
done
cc "${words[@]}" tools/peers/peers.c "${objects[@]}" "$archive" "$heap" -o "$work/peers"
ended=0
timeout 120 "$work/peers" > "$work/wrote" 2>&1 || ended=$?
grep -v '^ok ' "$work/wrote" || true
echo "checks $(grep -c '^ok ' "$work/wrote") ended $ended"
exit "$ended"
