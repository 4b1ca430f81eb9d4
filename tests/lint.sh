#!/usr/bin/env bash
# lint.sh: shellcheck over every shell script, clang-format over all C, rustfmt and clippy over every Rust program. All are run, and any
# finding is a failure. Files are found by git's list, those not yet added included, and scripts without a suffix by their first line.
set -eu -o pipefail
cd "$(dirname "$0")/.."

if [ $# -ne 0 ]; then
    echo "usage: lint.sh" >&2
    exit 2
fi

# In a copy without a repository: all but what is built.
list() {
    if [ -e .git ]; then
        git -c safe.directory="$PWD" ls-files -z --cached --others --exclude-standard
    else
        find . -name target -prune -o -type f -print0
    fi
}

scripts=() sources=() manifests=()
while IFS= read -r -d '' file; do
    [ -f "$file" ] || continue # removed, and not yet from the list
    case $file in
    *.sh | *.bash) scripts+=("$file") ;;
    *.c | *.h) sources+=("$file") ;;
    */Cargo.toml) manifests+=("$file") ;;
    *)
        IFS= read -r first <"$file" || true
        [[ ! $first =~ ^#!.*[/\ ](ba|da|k)?sh(\ |$) ]] || scripts+=("$file")
        ;;
    esac
done < <(list)
if [ ${#scripts[@]} -eq 0 ] || [ ${#sources[@]} -eq 0 ] || [ ${#manifests[@]} -eq 0 ]; then
    echo "lint.sh: found ${#scripts[@]} shell scripts, ${#sources[@]} C files, ${#manifests[@]} Rust programs: none may be 0" >&2
    exit 1
fi

failed=()
judge() { # WHAT COMMAND...
    local what=$1
    shift
    if "$@"; then
        echo "lint: $what"
    else
        failed+=("$what")
    fi
}

judge "shellcheck, ${#scripts[@]} scripts" shellcheck "${scripts[@]}"
judge "clang-format, ${#sources[@]} files" clang-format --dry-run --Werror "${sources[@]}"
# The build of tests/boundary asks for the library. Nothing is linked here, so any file will do, and none has to be built.
export KAWSARPA_LIB=$PWD/tests/lint.sh
for manifest in "${manifests[@]}"; do
    judge "rustfmt, $manifest" cargo fmt --check --manifest-path "$manifest"
    judge "clippy, $manifest" cargo clippy --offline --quiet --all-targets --manifest-path "$manifest" -- -D warnings
done

for what in "${failed[@]}"; do
    echo "lint.sh: failed: $what" >&2
done
[ ${#failed[@]} -eq 0 ]
