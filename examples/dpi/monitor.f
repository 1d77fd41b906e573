../testbench/lane_pkg.sv
../testbench/scrambler58.sv
../testbench/crc.sv
../testbench/disparity.sv
../testbench/framed_lane.sv
interlaken_dpi.sv
packets_pkg.sv
packet_source.sv
transmitter.sv
lane_wire.sv
lane_port.sv
monitored_device.sv
tb_monitor.sv
interlaken_dpi.c
-CFLAGS -I../library/include
../library/lib/libinterlaken.a
