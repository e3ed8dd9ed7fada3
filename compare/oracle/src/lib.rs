//! luad's own lifter, fed the inputs of document 01 and read back as flat records (include/RECORD.md).

use luad_core::id::{ProtoPath, StableId};
use luad_core::ir::{EffectTarget, ImplicitEffect, SemanticInstruction, TypedOperand};
use luad_core::model::{Constant, ConstantValue, InstructionWord, LuaString, Prototype, UpvalueDesc};
use luad_core::provenance::{Confidence, SourceLocation};
use luad_dialect_lua54::lifter::lift_proto_lua54;
use luad_dialect_lua54::opcodes::{OpMode54, RawInstruction54};
use model::flat::{Record, Slot};
use model::input::{part, Input, UNNAMED};
use model::word::Fields;

fn nowhere() -> SourceLocation {
    SourceLocation { byte_offset: 0, byte_length: 0, raw_hex: String::new() }
}

fn string(bytes: &[u8]) -> LuaString {
    let text = std::str::from_utf8(bytes);
    LuaString {
        raw_bytes: bytes.to_vec(),
        display: text.map_or_else(|_| String::from("?"), str::to_string),
        is_utf8: text.is_ok(),
    }
}

fn constant(tag: u8, payload: u64, bytes: &[u8]) -> ConstantValue {
    let text = || string(part(bytes, payload).expect("refusal 4 was tested"));
    match tag {
        0 => ConstantValue::Nil,
        1 => ConstantValue::Boolean(false),
        17 => ConstantValue::Boolean(true),
        3 => ConstantValue::Integer { val: payload as i64, raw_hex: String::new() },
        19 => {
            let val = f64::from_bits(payload);
            ConstantValue::Float { val, raw_hex: String::new(), is_nan: val.is_nan(), is_inf: val.is_infinite() }
        }
        4 => ConstantValue::ShortString(text()),
        20 => ConstantValue::LongString(text()),
        _ => panic!("refusal 3 was tested"),
    }
}

/// luad's prototype for an accepted input.
pub fn prototype(input: &Input) -> Prototype {
    let path = ProtoPath::root();
    let instructions = input.words.iter().enumerate().map(|(pc, &raw_word)| InstructionWord {
        id: StableId::instruction(path.clone(), pc),
        pc,
        raw_word,
        raw_hex: String::new(),
        source: nowhere(),
    });
    let constants = input.tags.iter().zip(&input.payloads).enumerate().map(|(index, (&tag, &payload))| Constant {
        id: StableId::constant(path.clone(), index),
        index,
        value: constant(tag, payload, &input.bytes),
        source: nowhere(),
    });
    let upvalues = input.names.iter().enumerate().map(|(index, &name)| UpvalueDesc {
        id: StableId::upvalue(path.clone(), index),
        index,
        instack: 0,
        idx: 0,
        kind: 0,
        name: (name != UNNAMED).then(|| string(part(&input.bytes, name).expect("refusal 5 was tested"))),
        source: nowhere(),
    });
    Prototype {
        id: StableId::proto(path.clone()),
        source_name: None,
        line_defined: 0,
        last_line_defined: 0,
        numparams: 0,
        is_vararg: 0,
        maxstacksize: 0,
        instructions: instructions.collect(),
        constants: constants.collect(),
        upvalues: upvalues.collect(),
        protos: vec![],
        line_info: vec![],
        abs_line_info: vec![],
        loc_vars: vec![],
        upvalue_names: vec![],
        source: nowhere(),
        path,
    }
}

/// luad's lifter, as it stands.
pub fn lift(proto: &Prototype) -> Vec<SemanticInstruction> {
    lift_proto_lua54(proto)
}

/// The records of an accepted input, flat.
pub fn records(input: &Input) -> Vec<Record> {
    let lifted = lift(&prototype(input));
    assert_eq!(lifted.len(), input.words.len(), "luad gives a record a word");
    lifted.iter().map(|r| flat(input, r)).collect()
}

/// `RawInstruction54::decode`, and the mode's number by the order of `OpMode54` from 1 on, 0 for an unknown opcode.
pub fn decode(word: u32) -> (Fields, u32) {
    let r = RawInstruction54::decode(word);
    let mode = r.opcode.map_or(0, |o| match o.mode() {
        OpMode54::IABC => 1,
        OpMode54::IABx => 2,
        OpMode54::IAsBx => 3,
        OpMode54::IAx => 4,
        OpMode54::IsJ => 5,
    });
    let fields = Fields {
        opcode: u32::from(r.opcode_num),
        a: u32::from(r.a),
        k: u32::from(r.k),
        b: u32::from(r.b),
        sb: r.sb,
        c: u32::from(r.c),
        sc: r.sc,
        bx: r.bx,
        sbx: r.sbx,
        ax: r.ax,
        sj: r.sj,
    };
    (fields, mode)
}

/// ltm.h's order, as disasm.rs has it; 25 for `__metamethod`.
fn event(name: &str) -> u64 {
    const EVENTS: [&str; 26] = [
        "__index",
        "__newindex",
        "__gc",
        "__mode",
        "__len",
        "__eq",
        "__add",
        "__sub",
        "__mul",
        "__mod",
        "__pow",
        "__div",
        "__idiv",
        "__band",
        "__bor",
        "__bxor",
        "__shl",
        "__shr",
        "__unm",
        "__bnot",
        "__lt",
        "__le",
        "__concat",
        "__call",
        "__close",
        "__metamethod",
    ];
    EVENTS.iter().position(|e| *e == name).unwrap_or_else(|| panic!("luad names the event {name}")) as u64
}

fn slot(kind: u64, a: u64, b: u64, c: u64) -> Slot {
    Slot { kind, numbers: [a, b, c] }
}

fn value(input: &Input, index: usize, value: &ConstantValue) -> (u64, u64) {
    let place = |s: &LuaString| {
        let place = input.payloads[index];
        assert_eq!(part(&input.bytes, place), Some(&s.raw_bytes[..]), "the bytes at the constant's place");
        place
    };
    match value {
        ConstantValue::Nil => (0, 0),
        ConstantValue::Boolean(b) => (1, u64::from(*b)),
        ConstantValue::Integer { val, .. } => (2, *val as u64),
        ConstantValue::Float { val, .. } => (3, val.to_bits()),
        ConstantValue::ShortString(s) => (4, place(s)),
        ConstantValue::LongString(s) => (5, place(s)),
    }
}

fn upvalue(input: &Input, kind: u64, index: u8, name: &Option<String>) -> Slot {
    match name {
        None => slot(kind, u64::from(index), 0, 0),
        Some(text) => {
            let place = input.names[usize::from(index)];
            assert_eq!(part(&input.bytes, place), Some(text.as_bytes()), "the bytes at the name's place");
            slot(kind, u64::from(index), 1, place)
        }
    }
}

fn child(path: &ProtoPath, index: usize) -> u64 {
    assert_eq!(*path, ProtoPath::root().child(index), "a prototype is its index");
    index as u64
}

fn operand(input: &Input, o: &TypedOperand) -> Slot {
    match o {
        TypedOperand::Register { index } => slot(0, u64::from(*index), 0, 0),
        TypedOperand::Constant { index, value: v } => {
            let (kind, v) = value(input, *index, v);
            slot(1, *index as u64, kind, v)
        }
        TypedOperand::Upvalue { index, name } => upvalue(input, 2, *index, name),
        TypedOperand::Prototype { index, path } => slot(3, child(path, *index), 0, 0),
        TypedOperand::ImmediateInt { value } => slot(4, *value as u64, 0, 0),
        TypedOperand::ImmediateFloat { value } => slot(5, value.to_bits(), 0, 0),
        TypedOperand::Jump { offset, target_pc, .. } => slot(6, i64::from(*offset) as u64, *target_pc as u64, 0),
        TypedOperand::Count { value, is_variable } => slot(7, *value as u64, u64::from(*is_variable), 0),
        TypedOperand::Flag { value } => slot(8, u64::from(*value), 0, 0),
        TypedOperand::ExtraArg { value } => slot(9, u64::from(*value), 0, 0),
    }
}

fn target(input: &Input, t: &EffectTarget) -> Slot {
    match t {
        EffectTarget::Register { index } => slot(0, u64::from(*index), 0, 0),
        EffectTarget::RegisterRange { start, end } => slot(1, u64::from(*start), u64::from(*end), 0),
        EffectTarget::RegisterRangeToTop { start } => slot(2, u64::from(*start), 0, 0),
        EffectTarget::Upvalue { index, name } => upvalue(input, 3, *index, name),
        EffectTarget::Constant { index } => slot(4, *index as u64, 0, 0),
        EffectTarget::Prototype { index, path } => slot(5, child(path, *index), 0, 0),
        EffectTarget::JumpTarget { pc } => slot(6, *pc as u64, 0, 0),
    }
}

fn effect(e: &ImplicitEffect) -> Slot {
    match e {
        ImplicitEffect::SetStackTop { base_register: r } => slot(1, u64::from(*r), 0, 0),
        ImplicitEffect::Multireturn { start_register: r } => slot(2, u64::from(*r), 0, 0),
        ImplicitEffect::CaptureUpvalue { register: r } => slot(3, u64::from(*r), 0, 0),
        ImplicitEffect::CloseUpvalues { min_register: r } => slot(4, u64::from(*r), 0, 0),
        ImplicitEffect::ConditionalSkip { skip_target_pc } => slot(5, *skip_target_pc as u64, 0, 0),
        ImplicitEffect::SetListBatch { start_index, count } => slot(6, *start_index as u64, *count as u64, 0),
        ImplicitEffect::CompanionPair { companion_pc, companion_role } => {
            let pc = *companion_pc as u64;
            match companion_role.strip_prefix("Metamethod fallback ") {
                Some(name) => slot(7, pc, 1, event(name)),
                None => {
                    assert_eq!(companion_role, "EXTRAARG (Ax constant index)");
                    slot(7, pc, 0, 0)
                }
            }
        }
    }
}

fn fill<const N: usize>(slots: Vec<Slot>) -> (u64, [Slot; N]) {
    let mut out = [Slot::default(); N];
    out[..slots.len()].copy_from_slice(&slots);
    (slots.len() as u64, out)
}

fn flat(input: &Input, r: &SemanticInstruction) -> Record {
    assert!(r.implicit_effects.len() <= 1 && r.metamethod_fallbacks.len() <= 1);
    let fallback = r.metamethod_fallbacks.first().map(|name| event(name));
    let (operand_count, operands) = fill(r.operands.iter().map(|o| operand(input, o)).collect());
    let (read_count, reads) = fill(r.reads.iter().map(|t| target(input, t)).collect());
    let (write_count, writes) = fill(r.writes.iter().map(|t| target(input, t)).collect());
    Record {
        pc: r.pc as u64,
        raw_word: u64::from(r.raw_word),
        opcode: u64::from(RawInstruction54::decode(r.raw_word).opcode_num),
        confidence: match r.confidence {
            Confidence::Unverified => 0,
            Confidence::Reviewed => 1,
            other => panic!("luad gives the confidence {other:?}"),
        },
        has_target: u64::from(r.jump_target.is_some()),
        target: r.jump_target.unwrap_or(0) as u64,
        has_companion: u64::from(r.companion_pc.is_some()),
        companion: r.companion_pc.unwrap_or(0) as u64,
        has_fallback: u64::from(fallback.is_some()),
        fallback: fallback.unwrap_or(0),
        effect: r.implicit_effects.first().map_or(Slot::default(), effect),
        operand_count,
        operands,
        read_count,
        reads,
        write_count,
        writes,
    }
}
