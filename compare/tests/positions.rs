//! The table of fields by itself, and against the judge: each byte of each
//! position of VOL1, ERMAP and labels of every level.

use compare::make::fields::READING_PAIRS;
use compare::make::positions::{field_at, of_another_level, Class, Field, ERMAP, HDR1, VOL1};
use compare::make::sample::{hdr1, Plain};
use compare::{judge, Refusal};

#[test]
fn each_position_stands_in_exactly_one_field() {
    for fields in [&VOL1[..], &ERMAP, &HDR1, &of_another_level()[..]] {
        let positions = fields.iter().flat_map(|field| field.first..=field.last);
        assert!(positions.eq(1..=128));
    }
}

#[test]
fn reserved_and_unjudged_positions_are_those_of_tables_2_to_4() {
    let of = |fields: &[Field], class| {
        let some = fields.iter().filter(|field| field.class == class);
        some.map(Field::length).sum::<usize>()
    };
    let tables = [&VOL1[..], &ERMAP, &HDR1];
    let reserved = tables.map(|fields| of(fields, Class::Reserved));
    assert_eq!(reserved, [89, 117, 55]);
    let unjudged = tables.map(|fields| of(fields, Class::Unjudged));
    assert_eq!(unjudged, [2, 0, 0]);
    assert_eq!(of(&of_another_level(), Class::Judged), 4 + 5 + 5 + 1);
}

/// A label of a healthy volume and the table that it goes by.
struct Tied {
    plain: Plain,
    /// Its sector on side 0.
    sector: usize,
    fields: Vec<Field>,
    /// A fault of a field itself.
    own: fn(&Field) -> Refusal,
    /// What else a changed byte of a judged field may be refused for.
    other: fn(&Field, &Refusal) -> bool,
}

impl Tied {
    /// Every byte in every position: one that is free changes nothing, a
    /// judged one is accepted or refused at its own field, or for what else
    /// the words say.
    fn holds(&self) {
        let healthy = judge(&self.plain.image);
        assert!(healthy.is_ok());
        let bytes = (1..=128).flat_map(|position| (0..=255).map(move |byte| (position, byte)));
        for (position, byte) in bytes {
            let field = field_at(&self.fields, position).expect("a field");
            let mut changed = self.plain.clone();
            changed.set_sector(self.sector, position, &[byte]);
            let judged = judge(&changed.image);
            let own = (self.own)(field);
            let right = match judged {
                _ if field.is_free() => judged == healthy,
                // 00 is legal in no judged field, and a field at fault is
                // read by no other rule.
                _ if byte == 0 => judged == Err(own),
                Ok(_) => true,
                Err(refused) => refused == own || (self.other)(field, &refused),
            };
            assert!(right, "{field:?}, {byte:02x} at {position}: {judged:?}");
        }
    }
}

/// Five cylinders, with two defective ones skipped, and two files beside each
/// other, their names alike but for one byte.
fn healthy() -> Plain {
    let mut plain = Plain::new(5, 9, 3, 0, 1);
    plain.set_sector(5, 7, b"020 040");
    plain.put_label(1, &hdr1("FILE0", 30, "01001", "02003"));
    plain.put_label(2, &hdr1("FILE1", 30, "03001", "03003"));
    plain
}

#[test]
fn vol1_is_judged_as_its_table_says() {
    let tied = Tied {
        plain: healthy(),
        sector: 7,
        fields: VOL1.to_vec(),
        own: |field| Refusal::at(3, field.first),
        other: |field, refused| match field.first {
            // "4 | VOL1 11 not space | 11"
            11 => *refused == Refusal::at(4, 11),
            // Another geometry has another length: "5 | image length wrong".
            76 | 81 | 83 | 85 | 89 => *refused == Refusal::at(5, 0),
            _ => false,
        },
    };
    tied.holds();
}

#[test]
fn ermap_is_judged_as_its_table_says() {
    let tied = Tied {
        plain: healthy(),
        sector: 5,
        fields: ERMAP.to_vec(),
        own: |field| Refusal::at(7, field.first),
        // "d1 is present and d1 < d2": 11 reads 7.
        other: |field, refused| field.first == 7 && *refused == Refusal::at(7, 11),
    };
    tied.holds();
}

/// The label in slot 1, fixed and unblocked of level space but for some fields.
fn label(changes: &[(usize, &[u8])], fields: &[Field]) -> Tied {
    let mut plain = healthy();
    for (position, bytes) in changes {
        plain.set(1, *position, bytes);
    }
    Tied {
        plain,
        sector: 8,
        fields: fields.to_vec(),
        // A slot without `HDR1` is no label: "9 | slot neither label nor
        // deleted".
        own: |field| match field.first {
            1 => Refusal::at(9, 1),
            first => Refusal::at_two(10, 1, first),
        },
        other: |field, refused| match (refused.number, field.first) {
            // Another field is at fault only if its rule reads this one.
            (10, read) => {
                refused.first == 1 && READING_PAIRS.contains(&(refused.second as usize, read))
            }
            // An extent or a name that becomes the second label's.
            (11, 29 | 35) | (12, 6) => refused.first == 2,
            _ => false,
        },
    }
}

#[test]
fn labels_of_levels_space_1_and_2_are_judged_as_their_table_says() {
    label(&[], &HDR1).holds();
    let blocked: [(usize, &[u8]); 4] = [(44, b"1"), (23, b"00256"), (54, b"0128"), (63, b"B")];
    label(&blocked, &HDR1).holds();
    label(&[(44, b"2"), (23, b"00128")], &HDR1).holds();
    for format in [b"V", b"S"] {
        let changes: [(usize, &[u8]); 4] = [(44, b"2"), (40, format), (54, b"0020"), (63, b"B")];
        label(&changes, &HDR1).holds();
    }
    label(&[(44, b"2"), (40, b"V"), (54, b"0030")], &HDR1).holds();
}

#[test]
fn a_label_of_another_level_is_judged_as_its_table_says() {
    label(&[(44, b"7")], &of_another_level()).holds();
}
