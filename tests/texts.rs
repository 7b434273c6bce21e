//! The texts of the tests.

/// A site, and a macro `INV` of 0.92 by 2.72 microns.
pub const INVERTER: &[u8] = b"VERSION 5.8 ;\n\
SITE core\n  CLASS CORE ;\n  SIZE 0.46 BY 2.72 ;\nEND core\n\
MACRO INV\n  CLASS CORE ;\n  ORIGIN 0 0 ;\n  SIZE 0.92 BY 2.72 ;\n  SITE core ;\nEND INV\n\
END LIBRARY\n";

/// A design of 252 bytes with `u1` that is not placed, and `u2` that is.
pub const TWO_INVERTERS: &[u8] =
    b"VERSION 5.8 ;\nDIVIDERCHAR \"/\" ;\nBUSBITCHARS \"[]\" ;\nDESIGN top ;\n\
UNITS DISTANCE MICRONS 1000 ;\nDIEAREA ( 0 0 ) ( 9200 2720 ) ;\n\
ROW r0 core 0 0 N DO 20 BY 1 STEP 460 0 ;\n\
COMPONENTS 2 ;\n- u1 INV ;\n- u2 INV + PLACED ( 920 0 ) N ;\nEND COMPONENTS\n\
END DESIGN\n";

/// Two layers of metal with a via, and wires of 0.14 microns.
pub const METALS: &[u8] = b"VERSION 5.8 ;\n\
LAYER met1\n  TYPE ROUTING ;\n  WIDTH 0.14 ;\n  SPACING 0.14 ;\nEND met1\n\
LAYER via1\n  TYPE CUT ;\nEND via1\n\
LAYER met2\n  TYPE ROUTING ;\n  WIDTH 0.14 ;\n  SPACING 0.14 ;\nEND met2\n\
VIA M1M2 DEFAULT\n  LAYER met1 ;\n    RECT -0.1 -0.1 0.1 0.1 ;\n  LAYER via1 ;\n    RECT -0.05 -0.05 0.05 0.05 ;\n\
  LAYER met2 ;\n    RECT -0.1 -0.1 0.1 0.1 ;\nEND M1M2\n";

/// Two layers of metal, a site, an inverter with three pins, and a buffer with one.
pub const PINNED: &[u8] = b"LAYER met1 TYPE ROUTING ; WIDTH 0.14 ; END met1\n\
LAYER via1 TYPE CUT ; END via1\n\
LAYER met2 TYPE ROUTING ; WIDTH 0.14 ; END met2\n\
SITE core CLASS CORE ; SIZE 0.46 BY 2.72 ; END core\n\
MACRO INV CLASS CORE ; SIZE 0.92 BY 2.72 ; SITE core ;\n\
PIN A PORT LAYER met1 ; RECT 0.1 1 0.3 1.2 ; END END A\n\
PIN Y PORT LAYER met1 ; RECT 0.6 1 0.8 1.2 ; END END Y\n\
PIN VDD PORT LAYER met1 ; RECT 0 2.48 0.92 2.72 ; END END VDD END INV\n\
MACRO BUF CLASS CORE ; SIZE 0.92 BY 2.72 ; SITE core ;\n\
PIN A PORT LAYER met1 ; RECT 0.1 1 0.3 1.2 ; END END A END BUF\n";

/// Two inverters with a wire between them, a supply, and a grid of two cells across.
pub const TWO_CONNECTED: &[u8] = b"UNITS DISTANCE MICRONS 1000 ;\n\
GCELLGRID X 0 DO 3 STEP 1000 ;\nGCELLGRID Y 0 DO 2 STEP 3000 ;\n\
COMPONENTS 3 ;\n- u0 BUF ;\n- u1 INV + PLACED ( 0 0 ) N ;\n- u2 INV + PLACED ( 920 0 ) N ;\nEND COMPONENTS\n\
BLOCKAGES 0 ;\nEND BLOCKAGES\n\
SPECIALNETS 1 ;\n- VDD ( * VDD ) + USE POWER ;\nEND SPECIALNETS\n\
NETS 1 ;\n- n1 ( u1 Y ) ( u2 A ) + ROUTED met1 ( 700 1100 ) ( 1120 * ) ;\nEND NETS\n\
END DESIGN\n";

/// The library of most examples: two layers of metal with a via, a site, and an inverter with three pins.
pub const WHOLE_LIBRARY: &[u8] = b"VERSION 5.8 ;\nUNITS\n  DATABASE MICRONS 1000 ;\nEND UNITS\nLAYER met1\n  TYPE ROUTING ;\n  WIDTH 0.14 ;\
\n  SPACING 0.14 ;\nEND met1\nLAYER via1\n  TYPE CUT ;\nEND via1\nLAYER met2\n  TYPE ROUTING ;\n  WIDTH 0.14 ;\
\n  SPACING 0.14 ;\nEND met2\nVIA M1M2 DEFAULT\n  LAYER met1 ;\n    RECT -0.1 -0.1 0.1 0.1 ;\n  LAYER via1 ;\
\n    RECT -0.05 -0.05 0.05 0.05 ;\n  LAYER met2 ;\n    RECT -0.1 -0.1 0.1 0.1 ;\nEND M1M2\nSITE core\
\n  CLASS CORE ;\n  SIZE 0.46 BY 2.72 ;\nEND core\nMACRO INV\n  CLASS CORE ;\n  ORIGIN 0 0 ;\
\n  SIZE 0.92 BY 2.72 ;\n  SITE core ;\n  PIN A\n    PORT\n      LAYER met1 ;\n        RECT 0.1 1 0.3 1.2 ;\
\n    END\n  END A\n  PIN Y\n    PORT\n      LAYER met1 ;\n        RECT 0.6 1 0.8 1.2 ;\n    END\n  END Y\
\n  PIN VDD\n    PORT\n      LAYER met1 ;\n        RECT 0 2.48 0.92 2.72 ;\n    END\n  END VDD\nEND INV\
\nEND LIBRARY\n";

/// Two inverters side by side on a net with a wire, and a supply.
pub const ON_A_NET: &[u8] = b"UNITS DISTANCE MICRONS 1000 ;\nROW r0 core 0 0 N DO 20 BY 1 STEP 460 0 ;\nCOMPONENTS 2 ;\n\
- u1 INV + PLACED ( 0 0 ) N ;\n- u2 INV + FIXED ( 920 0 ) N ;\nEND COMPONENTS\nSPECIALNETS 1 ;\n\
- VDD ( * VDD ) + USE POWER ;\nEND SPECIALNETS\nNETS 1 ;\n\
- n1 ( u1 Y ) ( u2 A ) + ROUTED met1 ( 700 1100 ) ( 1120 * ) ;\nEND NETS\nEND DESIGN\n";

/// Two inverters in a row, one in a fence of two rectangles.
pub const FENCE: &[u8] = b"UNITS DISTANCE MICRONS 1000 ;\nROW r0 core 0 0 N DO 20 BY 1 STEP 460 0 ;\nREGIONS 1 ;\n\
- F ( 0 0 ) ( 920 2720 ) ( 920 0 ) ( 1840 5440 ) + TYPE FENCE ;\nEND REGIONS\nCOMPONENTS 2 ;\n\
- u1 INV + PLACED ( 460 0 ) N + REGION F ;\n- u2 INV ;\nEND COMPONENTS\nBLOCKAGES 0 ;\nEND BLOCKAGES\n\
END DESIGN\n";

/// A strap over a grid of two by two cells.
pub const STRAP: &[u8] = b"UNITS DISTANCE MICRONS 1000 ;\nGCELLGRID X 0 DO 3 STEP 100 ;\nGCELLGRID Y 0 DO 3 STEP 100 ;\n\
SPECIALNETS 1 ;\n- P + ROUTED met1 10 ( 50 55 ) ( 150 * ) ;\nEND SPECIALNETS\nEND DESIGN\n";
