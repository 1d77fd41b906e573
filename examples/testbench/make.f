lane_pkg.sv
lane_writer.sv
scrambler58.sv
crc.sv
disparity.sv
framed_lane.sv
idle_lane.sv
tb_make.sv
