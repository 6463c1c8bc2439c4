# The program that is checked: FERRY_PROGRAM where that is set, and else what ./build leaves. Sourced by the scripts of checks/.
if [ -z "${FERRY_PROGRAM-}" ]; then
    ./build
fi
program=${FERRY_PROGRAM:-target/borgferry}
