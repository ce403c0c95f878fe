/* The memory of a core with the standard regions of rproc: 65,536 bytes from device address 0. */
ENTRY(worker)

MEMORY
{
	tcm (rwx) : ORIGIN = 0, LENGTH = 65536
}

SECTIONS
{
	.entry 0x0 : { *(.entry) } > tcm
	.text : { *(.text .text.*) *(.rodata .rodata.*) } > tcm
	.data : { *(.data .data.*) } > tcm
	.bss (NOLOAD) : { *(.bss .bss.*) *(COMMON) } > tcm
	.trace 0x1000 : { *(.trace) } > tcm
	.resource_table 0x1100 : { *(.resource_table) } > tcm
}
