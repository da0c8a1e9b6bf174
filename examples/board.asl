// A small board: a bridge with a serial port and a temperature sensor behind it. board.dat is this
// table as bytes, made with `iasl -p board board.asl`, whose file board.aml is renamed.
DefinitionBlock ("", "DSDT", 2, "ACPICK", "BOARD   ", 0x00000001)
{
    // Four ports: the lowest bits of the first tell what is switched on, the second is the sensor's.
    OperationRegion (PORT, SystemIO, 0x60, 0x04)
    Field (PORT, ByteAcc, NoLock, Preserve)
    {
        SWCH,   4,
        LEDS,   4,
        TEMP,   8
    }

    Scope (\_SB)
    {
        Device (PCI0)
        {
            Name (_ADR, Zero)

            Device (COM1)
            {
                Name (_UID, One)
                Name (_CRS, ResourceTemplate ()
                {
                    IO (Decode16, 0x03F8, 0x03F8, 0x01, 0x08)
                    IRQNoFlags () {4}
                })

                Method (_STA, 0)
                {
                    If (And (SWCH, One))
                    {
                        Return (0x0F)
                    }
                    Return (Zero)
                }
            }

            Device (SENS)
            {
                Name (_UID, 0x02)

                // The temperature in tenths of a kelvin, as _TMP tells it.
                Method (_TMP, 0)
                {
                    Return (Add (Multiply (TEMP, 0x0A), 0x0AAC))
                }

                Method (BLNK, 1)
                {
                    Store (Arg0, LEDS)
                    Notify (\_SB.PCI0.SENS, 0x80)
                }
            }
        }
    }
}
