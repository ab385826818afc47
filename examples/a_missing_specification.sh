bes synth examples/no_such_file.spec
