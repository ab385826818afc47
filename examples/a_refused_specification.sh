bes synth examples/a_name_given_twice.spec
