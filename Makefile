# make run JOB=FILE  plans a job file, and prints the plan
# make page JOB=FILE plans a job file, and prints the page of its plan for the cabinet door
# make test          everything, from nothing: tests/gate
# make check         proves what has changed, and runs the programs
# make bench         times reader, writer, square, planners, checker, cover calls and page against plain Rust, and measures the stack
# make ends          tells how the ends of plans by weight stand to those by number; make bench does too
# make leasts        tells how least covers stand to covers, and what that does to the sales sheet; make bench does too
# make host          runs the C host over the static library, and the README's example
# make differential  holds library and program to the reference planner on random jobs and plans: SEED=.. JOBS=..
# make examples      holds the examples and the tools for them to the reference planner
# make vectors       makes the cases of crates/vectors again
# make definitions   holds the definitions of crate etf, and the page, to the reference planner on random jobs: SEED=.. JOBS=..
# make clean         removes what was made

.PHONY: run page test check bench ends leasts bench-built host differential examples vectors definitions clean
.PHONY: job-named has-rt has-python3 has-cc has-objcopy has-rustc

libraries = target/staticlib/libkelvrist.a target/staticlib/libtiming.a

# The job's name goes to the shell as it was given: nothing in it, such as a $, is for make, and no quote is for the shell.
override JOB := $(value JOB)
export JOB

run: prints = run
run: job-named has-rt target/bin/plan
	@target/bin/plan <"$$JOB"

page: prints = page
page: job-named has-rt target/bin/page
	@target/bin/page <"$$JOB"

test:
	@tests/gate

check: has-rt target/bin/plan target/bin/page target/bin/vectors
	@rt all check
	@for program in plan page vectors; do target/bin/$$program <crates/$$program/stdin | cmp - crates/$$program/stdout || exit 1; done

bench: bench-built
	@target/bench crates/vectors

ends leasts: bench-built
	@target/bench crates/vectors $@

# No time hangs on where the linker puts a function: plain Rust's begin at a line of the cache, ours are timed at each start in one.
bench-built: has-rt has-cc has-objcopy has-rustc has-python3 $(libraries:target/staticlib/%=target/placed/%)
	@rustc --edition 2021 -O -C target-cpu=x86-64 -C codegen-units=1 -C llvm-args=-align-all-functions=6 \
		-L native=target/placed -l static=timing -l static=kelvrist -o target/bench bench/main.rs

target/placed/%.a: target/staticlib/%.a bench/place
	@mkdir -p target/placed
	@bench/place $< $@

host: has-rt has-cc has-python3 target/staticlib/libkelvrist.a
	@tests/c_host/run
	@python3 tests/readme.py

differential: has-rt has-cc has-python3 $(libraries) target/bin/plan target/bin/page
	@python3 tests/differential/differential.py seed=$(SEED) jobs=$(JOBS)
	@python3 tests/differential/program.py seed=$(SEED) jobs=$(JOBS)

examples: has-python3
	@python3 tests/examples.py

vectors: has-python3
	@python3 tests/make_vectors.py

definitions: has-rt has-python3
	@python3 tests/definitions.py seed=$(SEED) jobs=$(JOBS)

clean:
	@rm -rf target

# What is built is proved and written again where a file of its crates is newer. What is said of it goes to standard error.
uses = $(shell sed -nE 's/\#.*//; s/^$(1)( staticlib)?://p' crates.txt)
with_below = $(1) $(foreach used,$(call uses,$(1)),$(call with_below,$(used)))
folders = $(wildcard $(addprefix crates/,$(sort $(call with_below,$(1)))))
sources = crates.txt $(shell find $(call folders,$(1)) -name out -prune -o '(' -name '*.rt' -o -name '*.antt' ')' -print)
target/staticlib/libkelvrist.a: $(call sources,kelvrist_c)
	@tools/build kelvrist_c out/libkelvrist_c.a $@ >&2
target/staticlib/libtiming.a: $(call sources,timing)
	@tools/build timing out/libtiming.a $@ >&2

target/bin/plan: $(call sources,plan)
target/bin/page: $(call sources,page)
target/bin/vectors: $(call sources,vectors)
target/bin/%:
	@tools/build $* out/$* $@ >&2

# What is missing is said before anything is built.
job-named:
	@[ -n "$$JOB" ] || { echo "which job? for example: make $(prints) JOB=examples/a.job" >&2; exit 2; }
	@[ ! -d "$$JOB" ] || { printf '%s is a folder\n' "$$JOB" >&2; exit 2; }
	@[ -r "$$JOB" ] || { printf '%s is no file that can be read\n' "$$JOB" >&2; exit 2; }

has-rt: advice = install the Rattle kit and link its bin/rt
has-python3: advice = install Python 3
has-cc: advice = install a C compiler
has-objcopy: advice = install the binary utilities (binutils)
has-rustc: advice = install Rust
has-rt has-python3 has-cc has-objcopy has-rustc: has-%:
	@command -v $* >/dev/null 2>&1 || { echo "$* is not on the path: $(advice)" >&2; exit 2; }
