#!/bin/sh
# Builds the client only by javac; each warning is an error.
#
#     build.sh             makes out/classes, and the runner in out/test-classes
#     build.sh tests       does that, and makes the unit tests, over Debian's JUnit
#     build.sh test        does that, and runs them
#     build.sh lint        tests the doc comments, by javadoc
#     build.sh package     makes the jars, by Maven over Debian's plugins and without a network
set -eu
cd "$(dirname "$0")"
junit=/usr/share/java/junit4.jar:/usr/share/java/hamcrest-core.jar
repository=/usr/share/maven-repo
strictly="javac -Xlint:all -Werror --release 17 -encoding UTF-8"

build() {
    $strictly -d out/classes $(find src/main -name '*.java')
    $strictly -cp out/classes -d out/test-classes $(find src/test -name '*.java' ! -name '*Test.java')
    if [ ! -e out/test-classes/warm.p12 ]; then
        keytool -genkeypair -alias warm -keyalg EC -validity 3650 -storetype PKCS12 -storepass warming \
            -dname CN=localhost -ext san=dns:localhost -keystore out/test-classes/warm.p12 2>/dev/null
    fi
}

mkdir -p out
case "${1:-build}" in
build)
    build
    ;;
tests | test)
    if [ ! -e "${junit%%:*}" ]; then
        echo "build.sh: no test was run: Debian's junit4 is not there" >&2
        exit 1
    fi
    build
    $strictly -cp "out/classes:$junit" -d out/test-classes $(find src/test -name '*.java')
    [ "$1" = test ] || exit 0
    java -ea -cp "out/classes:out/test-classes:$junit" org.junit.runner.JUnitCore \
        $(find src/test -name '*Test.java' | sed 's,src/test/java/,,; s,/,.,g; s,\.java$,,' | sort)
    ;;
lint)
    javadoc -quiet -Xdoclint:all -Werror -d out/apidocs $(find src/main -name '*.java')
    ;;
package)
    if [ ! -e "$repository/org/apache/maven/plugins/maven-javadoc-plugin" ]; then
        echo "passed over: Debian's Maven plugins are not there"
        exit
    fi
    mvn -o -q -Dmaven.repo.local="$repository" package
    ;;
*)
    echo "build.sh: no such word: $1" >&2
    exit 2
    ;;
esac
