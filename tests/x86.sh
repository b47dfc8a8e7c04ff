# To be sourced from the repository's root. Programs are for x86-64, as the kit is.
#   CC, CXX      compile;  needs_compilers, needs_boost: install them where they are missing (Debian's packages)
CC=gcc CXX=g++
install_packages() {
  mkdir -p target-tests
  apt-get install -y -q "$@" > target-tests/apt.log 2>&1 || { apt-get update -q && apt-get install -y -q "$@"; } >> target-tests/apt.log 2>&1
}
needs_compilers() {
  command -v $CXX > /dev/null || install_packages gcc g++
}
needs_boost() {
  [ -e /usr/include/boost/version.hpp ] || install_packages libboost-dev
}
