// A DSDT and three SSDTs whose methods call one another: `iasl` puts the Externals of each into an `If (Zero)`.
DefinitionBlock ("calls0.aml", "DSDT", 2, "ACPICK", "CALLS0", 1)
{
    External (\_SB.PCI0.SUM2, MethodObj, IntObj, {IntObj, IntObj})
    Scope (\_SB)
    {
        Device (PCI0)
        {
            Name (_HID, EisaId ("PNP0A08"))
            Method (INC1, 1) { Return (Add (Arg0, One)) }
            Method (USE2, 1) { Return (SUM2 (Arg0, INC1 (Arg0))) }
        }
    }
}
DefinitionBlock ("calls1.aml", "SSDT", 2, "ACPICK", "CALLS1", 1)
{
    External (\_SB.PCI0, DeviceObj)
    External (\_SB.PCI0.INC1, MethodObj, IntObj, {IntObj})
    External (\_SB.PCI0.DEV1.ALL7, MethodObj)
    Scope (\_SB.PCI0)
    {
        Method (SUM2, 2) { Return (Add (INC1 (Arg0), INC1 (Arg1))) }
        Device (DEV0) { Method (TOP0) { Return (\_SB.PCI0.DEV1.ALL7 (1, 2, 3, 4, 5, 6, 7)) } }
    }
}
DefinitionBlock ("calls2.aml", "SSDT", 2, "ACPICK", "CALLS2", 1)
{
    External (\_SB.PCI0, DeviceObj)
    External (\_SB.PCI0.SUM2, MethodObj, IntObj, {IntObj, IntObj})
    External (\_SB.PCI0.DEV0.TOP0, MethodObj)
    Scope (\_SB.PCI0)
    {
        Device (DEV1)
        {
            Method (ALL7, 7) { Return (SUM2 (Arg0, SUM2 (Arg1, Arg6))) }
            Method (_STA) { Return (TOP0 ()) }
            Method (TOP0) { Return (\_SB.PCI0.DEV0.TOP0 ()) }
        }
    }
}
DefinitionBlock ("calls3.aml", "SSDT", 2, "ACPICK", "CALLS3", 1)
{
    External (\_SB.PCI0.DEV1, DeviceObj)
    External (\_SB.PCI0.DEV1.ALL7, MethodObj)
    External (\_SB.PCI0.USE2, MethodObj, IntObj, {IntObj})
    Scope (\_SB.PCI0.DEV1)
    {
        Name (INT3, 3)
        Method (LAST) { Return (ALL7 (USE2 (INT3), 2, 3, 4, 5, 6, USE2 (7))) }
    }
}
