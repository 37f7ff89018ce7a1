../tilelink_recorder.sv
../tilelink_ul_recorder.sv
widths.sv
