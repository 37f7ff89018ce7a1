../tilelink_cycle_counter.sv
../tilelink_recorder.sv
unknown.sv
