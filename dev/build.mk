# Proves the libraries, side by side when they don't depend on one another, then the programs, and links them:
#     make -f dev/build.mk -j LIBRARIES JOBS=JOBS programs
# dev/record runs it at the top of the repository for dev/build. A line of crates.txt is a rule: a crate follows what it
# depends on.
include crates.txt

# The examples of the definitions are no part of the program, and no program uses nfcapd_read yet.
crates := $(filter-out definition_examples nfcapd_read,$(shell sed -n 's/^\([a-z_]*\):.*/\1/p' crates.txt))
# A program is a crate of this name.
programs := $(filter %_main,$(crates))
.PHONY: programs $(crates)
programs: $(programs)

# dev/build reads when a crate begins and is proved. All that rt prints has the name of the crate before it.
SHELL = bash
.SHELLFLAGS = -o pipefail -ec
begins = @echo 'begins: $@'
proved = @echo 'proved: $@'
named = </dev/null 2>&1 | sed -u 's/^/$@: /'

# Each job reads the modules of the logic and of the crates below anew: flow_filter takes 120 CPU seconds by one job,
# and 175 by four. So most libraries have half of the jobs. Nearly all of them wait for pmap_model, which has all.
jobs = $(if $(filter pmap_model,$@),$(JOBS),$(shell expr \( $(JOBS) + 1 \) / 2))

# rt locks the folder of a crate and those of all crates below, so it would prove the crates above prefix_keys one by
# one. So each library is proved in a room, which has links to the sources and to the libraries that are built. An
# interrupted build leaves what it proved in the room. The locks keep other rules and calls of rt out meanwhile.
room = out/rooms/$@
leave = rm -rf crates/$@/out && mv $(room)/crates/$@/out crates/$@ && rm -rf $(room) \
	&& rmdir --ignore-fail-on-non-empty out/rooms

$(filter-out $(programs),$(crates)):
	$(begins)
	@flock crates/$@ flock crates sh -ec "if [ -d $(room)/crates/$@/out ]; then $(leave); fi; \
		mkdir -p $(room) crates/$@/out; \
		cp -rln --parents crates.txt crates/*/src crates/*/specs crates/*/proofs crates/$@/out $(room); \
		find crates -path 'crates/*/out/rlib' -prune -exec cp -rln --parents -t $(room) {} +"
	@cd $(room)/crates/$@ && rt lib --jobs $(jobs) $(named)
	@flock crates/$@ flock crates sh -ec '$(leave)'
	$(proved)

# Under rt run the program is proved, is linked and runs once, and --help needs no file.
$(programs):
	$(begins)
	@cd crates/$@ && rt run --jobs $(JOBS) -- --help $(named)
	$(proved)

# The toolchain's own libraries are there.
.DEFAULT: ;
