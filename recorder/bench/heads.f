../tilelink_cycle_counter.sv
../tilelink_recorder.sv
../tilelink_ul_recorder.sv
heads.sv
