../testbench/lane_pkg.sv
../testbench/scrambler58.sv
../testbench/crc.sv
../testbench/disparity.sv
../device/device_pkg.sv
../device/payload_source.sv
../device/lane_sender.sv
../device/device.sv
lane_adapt.sv
interlaken_dpi.sv
packets_pkg.sv
adapted_device.sv
tb_monitor.sv
interlaken_dpi.c
-CFLAGS -I../library/include
../library/lib/libinterlaken.a
