../testbench/lane_pkg.sv
../testbench/scrambler58.sv
../testbench/crc.sv
../testbench/word_lock.sv
../testbench/metaframe_lock.sv
../testbench/lane_receiver.sv
interlaken_dpi.sv
packets_pkg.sv
flow_device.sv
tb_drive.sv
interlaken_dpi.c
-CFLAGS -I../library/include
../library/lib/libinterlaken.a
