//! A valid message of given transfers: they are cut into blocks, and what all
//! of a block share may move between the block and its payments.

use super::draft::Draft;
use super::random::Random;
use super::transfer::*;

const MOST_BLOCKS: usize = 16;

/// Any order of the transfers that fits into sixteen blocks, as ordinals.
pub fn any_order(transfers: &[Transfer], random: &mut Random) -> Vec<usize> {
    let mut order: Vec<usize> = (0..transfers.len()).collect();
    random.shuffle(&mut order);
    gather(transfers, &mut order);
    order
}

/// Brings those of one debit side together if they need too many blocks.
pub fn gather(transfers: &[Transfer], order: &mut [usize]) {
    if runs(order.iter().map(|ordinal| &transfers[*ordinal])) > MOST_BLOCKS {
        let first_alike = |ordinal: &usize| {
            transfers.iter().position(|other| other.side == transfers[*ordinal].side)
        };
        order.sort_by_key(first_alike);
    }
}

fn runs<'t>(transfers: impl Iterator<Item = &'t Transfer>) -> usize {
    let mut runs = 0;
    let mut last = None;
    for transfer in transfers {
        if last != Some(&transfer.side) {
            runs += 1;
        }
        last = Some(&transfer.side);
    }
    runs
}

fn cut(transfers: &[Transfer], most: usize, random: &mut Random) -> Vec<Vec<Transfer>> {
    let mut spare = most.saturating_sub(runs(transfers.iter()));
    let mut blocks: Vec<Vec<Transfer>> = Vec::new();
    for transfer in transfers {
        let alike = blocks.last().is_some_and(|block| block[0].side == transfer.side);
        let split = alike && spare > 0 && random.percent(15);
        spare -= usize::from(split);
        match blocks.last_mut() {
            Some(block) if alike && !split => block.push(transfer.clone()),
            _ => blocks.push(vec![transfer.clone()]),
        }
    }
    blocks
}

pub fn message(transfers: &[Transfer], plenty: Plenty, random: &mut Random) -> Draft {
    let blocks = cut(transfers, MOST_BLOCKS, random);
    let mut parts = vec![header(transfers, plenty, random)];
    for (ordinal, transfers) in blocks.iter().enumerate() {
        parts.push(block(ordinal, transfers, plenty, random));
    }
    Draft::group("Document", vec![Draft::group("CstmrCdtTrfInitn", parts)])
}

fn count_and_sum(transfers: &[Transfer], random: &mut Random) -> [Draft; 2] {
    let sum = transfers.iter().map(|transfer| transfer.cents).sum();
    [
        Draft::leaf("NbOfTxs", &with_zeros(transfers.len() as u64, random)),
        Draft::leaf("CtrlSum", &written_cents(sum, random)),
    ]
}

fn header(transfers: &[Transfer], plenty: Plenty, random: &mut Random) -> Draft {
    let mut parts =
        vec![Draft::leaf("MsgId", &id(plenty, random)), Draft::leaf("CreDtTm", &moment(random))];
    parts.extend(count_and_sum(transfers, random));
    parts.push(Draft::nested(&["InitgPty", "Nm"], &text(70, plenty, random)));
    Draft::group("GrpHdr", parts)
}

fn block(ordinal: usize, transfers: &[Transfer], plenty: Plenty, random: &mut Random) -> Draft {
    let Transfer { side, kind, ultimate_debtor, .. } = &transfers[0];
    let same_kind = transfers.iter().all(|other| other.kind == *kind) && random.percent(60);
    let same_debtor = ultimate_debtor.is_some()
        && transfers.iter().all(|other| other.ultimate_debtor == *ultimate_debtor)
        && random.percent(60);
    let charges_here = random.percent(plenty.chance);

    let mut parts = vec![
        Draft::leaf("PmtInfId", &format!("{ordinal}-{}", of(b"aB9 .", random.below(9), random))),
        Draft::leaf("PmtMtd", "TRF"),
    ];
    if !side.batch || random.percent(50) {
        parts.push(Draft::leaf("BtchBookg", if side.batch { "true" } else { "false" }));
    }
    parts.extend(count_and_sum(transfers, random));
    parts.extend(same_kind.then(|| payment_type(kind, random)));
    parts.push(Draft::group("ReqdExctnDt", vec![execution_date(&side.date)]));
    parts.push(Draft::nested(&["Dbtr", "Nm"], &side.debtor));
    parts.push(Draft::nested(&["DbtrAcct", "Id", "IBAN"], &side.account));
    parts.push(match &side.agent {
        Some(bic) => Draft::nested(&["DbtrAgt", "FinInstnId", "BICFI"], bic),
        None => Draft::nested(&["DbtrAgt", "FinInstnId", "Othr", "Id"], "NOTPROVIDED"),
    });
    parts.extend(party("UltmtDbtr", ultimate_debtor).filter(|_| same_debtor));
    parts.extend(charges_here.then(|| Draft::leaf("ChrgBr", "SLEV")));
    for transfer in transfers {
        let charges = !charges_here && random.percent(plenty.chance);
        parts.push(payment(transfer, [!same_kind, charges, !same_debtor], random));
    }
    Draft::group("PmtInf", parts)
}

pub fn execution_date(date: &Execution) -> Draft {
    match date {
        Execution::Day(text) => Draft::leaf("Dt", text),
        Execution::Moment(text) => Draft::leaf("DtTm", text),
    }
}

pub fn local_instrument() -> Draft {
    Draft::nested(&["LclInstrm", "Cd"], "INST")
}

fn payment_type(kind: &Kind, random: &mut Random) -> Draft {
    let mut parts = Vec::new();
    if kind.high || random.percent(50) {
        parts.push(Draft::leaf("InstrPrty", if kind.high { "HIGH" } else { "NORM" }));
    }
    parts.push(Draft::nested(&["SvcLvl", "Cd"], "SEPA"));
    parts.extend(kind.instant.then(local_instrument));
    parts.extend(kind.category.as_ref().map(|code| Draft::nested(&["CtgyPurp", "Cd"], code)));
    Draft::group("PmtTpInf", parts)
}

fn party(tag: &str, name: &Option<String>) -> Option<Draft> {
    name.as_ref().map(|name| Draft::nested(&[tag, "Nm"], name))
}

/// The payment, which says its own kind, charges and ultimate debtor or not.
fn payment(
    transfer: &Transfer,
    [own_kind, own_charges, own_debtor]: [bool; 3],
    random: &mut Random,
) -> Draft {
    let mut ids = Vec::new();
    ids.extend(transfer.instruction.as_ref().map(|id| Draft::leaf("InstrId", id)));
    ids.push(Draft::leaf("EndToEndId", &transfer.end_to_end));
    let amount = Draft::amount("EUR", &written_cents(transfer.cents, random));

    let mut parts = vec![Draft::group("PmtId", ids)];
    parts.extend(own_kind.then(|| payment_type(&transfer.kind, random)));
    parts.push(Draft::group("Amt", vec![amount]));
    parts.extend(own_charges.then(|| Draft::leaf("ChrgBr", "SLEV")));
    parts.extend(party("UltmtDbtr", &transfer.ultimate_debtor).filter(|_| own_debtor));
    let agent = transfer.creditor_agent.as_ref();
    parts.extend(agent.map(|bic| Draft::nested(&["CdtrAgt", "FinInstnId", "BICFI"], bic)));
    parts.push(Draft::nested(&["Cdtr", "Nm"], &transfer.creditor));
    parts.push(Draft::nested(&["CdtrAcct", "Id", "IBAN"], &transfer.creditor_account));
    parts.extend(party("UltmtCdtr", &transfer.ultimate_creditor));
    parts.extend(transfer.purpose.as_ref().map(|code| Draft::nested(&["Purp", "Cd"], code)));
    parts.extend(transfer.remittance.as_ref().map(remittance_part));
    Draft::group("CdtTrfTxInf", parts)
}

fn remittance_part(remittance: &Remittance) -> Draft {
    match remittance {
        Remittance::Plain(text) => Draft::nested(&["RmtInf", "Ustrd"], text),
        Remittance::Reference { issuer, reference } => {
            let mut kind = vec![Draft::nested(&["CdOrPrtry", "Cd"], "SCOR")];
            kind.extend(issuer.as_ref().map(|issuer| Draft::leaf("Issr", issuer)));
            let parts = vec![Draft::group("Tp", kind), Draft::leaf("Ref", reference)];
            let reference = Draft::group("CdtrRefInf", parts);
            Draft::group("RmtInf", vec![Draft::group("Strd", vec![reference])])
        }
    }
}
