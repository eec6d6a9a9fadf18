# Meshes of several parts, four at a time: make -j 4 -f examples/meshes.mk, at the top of the repository. What is made
# already and is newer than its source is left as it is.
# `make -j 4 -f examples/meshes.mk parts` writes an STL file and a sheet of views of each part in Python.
# `check` ends with 0 whatever it finds, so its line is compared: make stops at a mesh that is not closed, or is empty.
all: drawn/case.checked drawn/lid.checked drawn/bolt.checked
parts: $(patsubst examples/parts/%.py,drawn/%.stl,$(wildcard examples/parts/*.py))

.DELETE_ON_ERROR:
.PHONY: all parts
.SECONDARY:

# Two bodies of one file, by the name that a last line gives.
drawn/case.vm drawn/lid.vm: drawn/%.vm: examples/case.formulas
	(cat $<; echo 'body = $*') | ./clauses > $@

drawn/%.vm: examples/%.formulas
	./clauses < $< > $@

drawn/%.vm: examples/%.solid
	./modeller solid < $< > $@

drawn/case.ply drawn/lid.ply: view = x0=-16 x1=16 y0=-16 y1=16 z0=-1 z1=19 nx=64 ny=64 nz=40
drawn/bolt.ply: view = x0=-14 x1=14 y0=-14 y1=14 z0=-1 z1=41 nx=56 ny=56 nz=84

drawn/%.ply: drawn/%.vm
	./modeller mesh $(view) < $< > $@

drawn/%.stl: examples/parts/%.py
	PYTHONPATH=python python3 -m modeller $< --views drawn/$*.png --mesh $@ --cell 0.5

drawn/%.checked: drawn/%.ply
	./modeller check < $< | tee $@ | grep '^closed manifold [1-9]'
