// What acpi.c says of a board with eight devices. Each has two lines.
DefinitionBlock ("dsdt.aml", "DSDT", 2, "VMIG  ", "HYPERVIS", 1)
{
    Name (_S5, Package () { 5, 0, 0, 0 })
    Scope (\_SB)
    {
        Device (V000) { Name (_HID, "LNRO0005") Name (_UID, "0") Name (_CCA, One) Name (_CRS, ResourceTemplate () {
            Memory32Fixed (ReadWrite, 0xD0000000, 0x1000) Interrupt (ResourceConsumer, Level, ActiveHigh, Exclusive) { 5 } }) }
        Device (V001) { Name (_HID, "LNRO0005") Name (_UID, "1") Name (_CCA, One) Name (_CRS, ResourceTemplate () {
            Memory32Fixed (ReadWrite, 0xD0001000, 0x1000) Interrupt (ResourceConsumer, Level, ActiveHigh, Exclusive) { 6 } }) }
        Device (V002) { Name (_HID, "LNRO0005") Name (_UID, "2") Name (_CCA, One) Name (_CRS, ResourceTemplate () {
            Memory32Fixed (ReadWrite, 0xD0002000, 0x1000) Interrupt (ResourceConsumer, Level, ActiveHigh, Exclusive) { 7 } }) }
        Device (V003) { Name (_HID, "LNRO0005") Name (_UID, "3") Name (_CCA, One) Name (_CRS, ResourceTemplate () {
            Memory32Fixed (ReadWrite, 0xD0003000, 0x1000) Interrupt (ResourceConsumer, Level, ActiveHigh, Exclusive) { 9 } }) }
        Device (V004) { Name (_HID, "LNRO0005") Name (_UID, "4") Name (_CCA, One) Name (_CRS, ResourceTemplate () {
            Memory32Fixed (ReadWrite, 0xD0004000, 0x1000) Interrupt (ResourceConsumer, Level, ActiveHigh, Exclusive) { 10 } }) }
        Device (V005) { Name (_HID, "LNRO0005") Name (_UID, "5") Name (_CCA, One) Name (_CRS, ResourceTemplate () {
            Memory32Fixed (ReadWrite, 0xD0005000, 0x1000) Interrupt (ResourceConsumer, Level, ActiveHigh, Exclusive) { 11 } }) }
        Device (V006) { Name (_HID, "LNRO0005") Name (_UID, "6") Name (_CCA, One) Name (_CRS, ResourceTemplate () {
            Memory32Fixed (ReadWrite, 0xD0006000, 0x1000) Interrupt (ResourceConsumer, Level, ActiveHigh, Exclusive) { 12 } }) }
        Device (V007) { Name (_HID, "LNRO0005") Name (_UID, "7") Name (_CCA, One) Name (_CRS, ResourceTemplate () {
            Memory32Fixed (ReadWrite, 0xD0007000, 0x1000) Interrupt (ResourceConsumer, Level, ActiveHigh, Exclusive) { 14 } }) }
        Device (COM1) { Name (_HID, EisaId ("PNP0501")) Name (_UID, One) Name (_CRS, ResourceTemplate () {
            IO (Decode16, 0x03F8, 0x03F8, 1, 8) Interrupt (ResourceConsumer, Level, ActiveHigh, Exclusive) { 4 } }) }
    }
}
