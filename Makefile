# make                     builds the proved program, which bin/flowlabel runs: half an hour of CPU time, the first time
# make trial               builds out/trial/flowlabel, which is not proved, in some minutes
# make bill                prints the bill of README.md by the program that is built. If there is none, it makes a trial
# make check               runs the tests over the program that is there. T='NAME ..' runs those with such names, and
#                          JOBS=N runs N classes of tests at a time
# make test                runs the gate, which also builds the program, and then all tests, as CI does. Whatever needs
#                          a missing package, a right or a part of the kernel is skipped. RT_JOBS=N: N tasks at a time
# make definitions         changes the trusted definitions: an example or a law must see each change
# make bench               measures the speed of the program
# make install, uninstall  installs the proved program with pages, examples and commands below DESTDIR and PREFIX
#                          (/usr/local), or removes them
# make package             makes out/flowlabel-VERSION-x86_64-linux.tar.gz and out/flowlabel_VERSION_amd64.deb of them
# make help                prints these lines
.PHONY: build trial bill check test definitions bench install uninstall package help
.NOTPARALLEL:

PREFIX = /usr/local
DESTDIR =
# Whatever these contain, neither make nor the shell runs it.
override T := $(value T)
override PREFIX := $(value PREFIX)
override DESTDIR := $(value DESTDIR)
export T PREFIX DESTDIR

build:
	@dev/build

trial:
	@dev/trial.py

bill:
	@dev/bill

check:
	@set -f; tests/run.py $$T

test:
	dev/record gate
	tests/run.py

definitions:
	dev/definitions

bench:
	bench/run

# With sudo, install a program that is built: rt is not on root's path.
install: build
	@dev/install

uninstall:
	@dev/install --remove

package: build
	@dev/package

help:
	@sed -n 's/^# //p; /^\.PHONY/q' Makefile
