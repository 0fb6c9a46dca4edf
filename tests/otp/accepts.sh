#!/usr/bin/env bash
# Has the compiler of Erlang/OTP take the texts of examples, and runs one function of each.
# It takes no text in which a match or a function can fail: it wants the reason's tuple written inside `match_fail`, where
# let form has a variable. So `pairs.erl` is not among them. It is no part of the gate. Where `erlc` is missing it says so and ends well.
set -eu
cd "$(dirname "$0")/../.."

if ! command -v erlc >/dev/null; then
    echo "accepts: erlc is missing, so nothing was tried"
    exit 0
fi

folder=$(mktemp -d)
trap 'rm -rf "$folder"' EXIT

# a module of the examples, a call, and the value that it has to give
accepts() {
    cp "examples/$1.erl" "$folder"
    ./erlfront "$folder/$1.erl"
    (cd "$folder" && erlc +from_core "$1.core")
    value=$(cd "$folder" && erl -noshell -eval "io:format(\"~w\", [$2]), halt().")
    if [ "$value" != "$3" ]; then
        echo "accepts: $2 gives $value in place of $3" >&2
        exit 1
    fi
    echo "accepts: $2 gives $value"
}

accepts a 'a:f(5)' 5
accepts relay 'relay:module_info(module)' relay
