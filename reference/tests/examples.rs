//! The worked examples of 001 and 003 that are in scope, as whole calls.

use reference::harness::requests::{self, frame, string};
use reference::harness::tables::Tables;
use reference::rows::{FREE, IDLE, LOADING, PENDING};
use reference::{handle, usable, Answer, Supplement};

const OWN: &[u8] = b"SMID.1:Prism:12345678:20130303T153830Z:E7C42215AF1FE951:9C7D";
const TAG: &[u8] = b"A9FE9315B7456852D261B5A42364C4F5AF9693DB0D6931B6";
/// The card of 001 example 6.3.8.4.
const CARD: &str = "ACT20040301T140000Z;BDT19930101T000000Z;CLMFFFFFFFF;CLU0;DKG04;IUT20150301T140000Z;KCV6C3DE4;KEN255;KRN1;KSLTestKMCName;KTC2;SBMFFFF;SGC0000123457;ULM999999999;VND1;";

fn supplement(clock: &[u8; 16], request: &[u8]) -> Supplement {
    requests::supplement(clock, OWN, request, TAG, b"92E101")
}

/// Makes a call and gives the response without checksum and carriage return.
fn ask(tables: &mut Tables, supplement: &Supplement, request: &[u8]) -> (Answer, String) {
    let mut response = [0; 1024];
    let (slots, registers) = (tables.slot_count, tables.register_count);
    let answer =
        handle(&mut tables.slots[..slots], &mut tables.registers[..registers], supplement, request, &mut response);
    let text = response[..answer.length].to_vec();
    let body = &text[..text.len() - 5];
    assert_eq!(frame(&text[..5], &body[5..]), text, "the response is framed");
    (answer, String::from_utf8(body.to_vec()).unwrap())
}

fn plain() -> Supplement {
    supplement(b"20130303T153839Z", b"x")
}

#[test]
fn clause_5_3_3() {
    let mut response = [0; 1024];
    for (request, reply) in [
        (&b"SM?GAN12~8602\r"[..], &b"SM!GA22CA00\r"[..]),
        (b"SM?DI0000\r", b"GL!ER20A624\r"),
        (b"SM?JUNK420B\r", b"GL!ER2166E5\r"),
    ] {
        let mut tables = Tables::empty(8, 32);
        let answer = handle(&mut tables.slots[..8], &mut tables.registers[..32], &plain(), request, &mut response);
        assert_eq!(&response[..answer.length], reply);
    }
}

#[test]
fn clause_6_3_3_4_request() {
    let request = b"PK.ECDH.1|KMCID.1:SoftwareV2.3:KMCName:20130301T173830Z:8E22231BC992010A:A4A4|046B540E54A9FE9315B7456852D261B5A42364C4F5AF9693DB0D695A03E6E06C696B2AB03C4613334A53FDD5D543701FAA281564231575002810574B7748B327C0329B0F5C1205158B229DB6F0AE5A065CDB64E62BC131A1C434DEFEF46A567BD7|99991231T115959Z|||5AA6";
    let record = b"VKLOAD.REQ.1|SMID.1:Prism:12345678:20130303T153830Z:829DB2CB4141BBBA:8552|KMCID.1:SoftwareV2.3:KMCName:20130301T173830Z:8E22231BC992010A:A4A4|20130303T153831Z|Prism-TSM250-1|STS65V00|0404DFC9D6464028EB3D718CD8BA3246F3B32E2CD040C8DAA2CEC46ADD57823E8828B33103FE46EC7C7700A3CB22CECDF7B9211E15EF826F22C38D48B6C93A875BB617AB2696F3C27217FA20D98070CA0004C8D8A67F66A463FFD1B50415EC2206|4D8D3283875E86CCEF4328FF5B520B370FA281CDAD19DA6A|67DF";
    let mut tables = Tables::empty(2, 2);
    let supplement = supplement(b"20130303T153831Z", record);
    let (answer, reply) = ask(&mut tables, &supplement, &frame(b"SM?KC", &string(request)));
    assert_eq!((answer.outcome, answer.state), (0, Some(PENDING)));
    assert_eq!(reply, format!("SM!KC00PKMCName~P{}~", String::from_utf8_lossy(record)));
    assert_eq!(tables.slots[0].name(), b"KMCName");
    assert_eq!(&tables.slots[0].fingerprint, b"8E22231BC992010A");
    assert_eq!(&tables.slots[0].tvp, b"20130303T153831Z");
}

#[test]
fn clause_6_3_4_4_response() {
    let record = "VKLOAD.RESP.1|KMCID.1:ArbSWID:ArbKMCID:20040101T120000Z:65AF90C4DBAF23D3:3AC4|SMID.1:Prism:12345678:20130303T153830Z:E7C42215AF1FE951:9C7D|20130303T153839Z|A9FE9315B7456852D261B5A42364C4F5AF9693DB0D6931B6|";
    let mut tables = Tables::empty(2, 2);
    tables.put_slot(1, PENDING, b"ArbKMCID", b"65AF90C4DBAF23D3", b"20130303T153839Z");
    // As printed its checksum is wrong.
    let (answer, reply) = ask(&mut tables, &plain(), &frame(b"SM?KR", &string(format!("{record}9D28").as_bytes())));
    assert_eq!((answer.outcome, reply.as_str()), (9, "SM!KREEPKM.09~"));
    let (answer, reply) = ask(&mut tables, &plain(), &frame(b"SM?KR", &string(format!("{record}15B1").as_bytes())));
    assert_eq!((answer.outcome, answer.state, reply.as_str()), (0, Some(LOADING), "SM!KR00PArbKMCID~"));
    assert_eq!((tables.slots[1].state, tables.slots[1].tvp), (LOADING, [0; 16]));
}

#[test]
fn codes_of_003_clause_13() {
    let kmc = requests::identity(b"KMCID.1", b"SW", b"K", b"20040101T120000Z", b"65AF90C4DBAF23D3");
    let other = requests::identity(b"KMCID.1", b"SW", b"K", b"20040101T120000Z", b"65AF90C4DBAF23D4");
    let module = requests::identity(b"SMID.1", b"Prism", b"1", b"20130303T153830Z", b"E7C42215AF1FE951");
    let mut tables = Tables::empty(1, 1);
    tables.put_slot(0, PENDING, b"K", b"65AF90C4DBAF23D3", b"20130303T153839Z");
    let before = tables.clone();
    for (request, reply) in [
        (requests::respond(&kmc, &module, b"20130303T153839Z", TAG), "SM!KREEPSM.3B.6~"),
        (requests::respond(&other, OWN, b"20130303T153839Z", TAG), "SM!KREEPSM.3B.7~"),
        (requests::respond(&kmc, OWN, b"20130303T153838Z", TAG), "SM!KREEPSM.3B.8~"),
        (requests::respond(&kmc, OWN, b"20130303T153839Z", &[b'0'; 48]), "SM!KREEPSM.3B.9~"),
    ] {
        assert_eq!(ask(&mut tables, &plain(), &request).1, reply);
        assert!(tables == before, "a bad response leaves the session as it is");
    }
}

#[test]
fn clause_6_3_5_4_load() {
    let record = "KEY.1|000000000000000000000000A|ACT20130716T151031Z;BDT20130716T151031Z;DKG04;KEN255;KRN6;KTC2;SGC0000758825;|42A08D17E89E5B9DE6F863E13D044853B49880FE8560C449B61A77986079DB14E015734E|";
    let mut tables = Tables::empty(1, 2);
    tables.put_slot(0, LOADING, b"KMC1", b"65AF90C4DBAF23D3", b"");
    let load = |checksum: &str| frame(b"SM?KL", format!("PKMC1~P{record}{checksum}~").as_bytes());
    assert_eq!(ask(&mut tables, &plain(), &load("73C7")).1, "SM!KLEEPKM.09~");
    let printed = "SM!KL00N1~PACT20130716T151031Z;BDT20130716T151031Z;CLMFFFFFFFF;CLU0;DKG04;IUT20380119T031407Z;KCV92E101;KEN255;KRN6;KSLKMC1;KTC2;SBMFFFF;SGC0000758825;ULM999999999;VND0;~";
    // Loaded once more it takes the same register.
    for _ in 0..2 {
        let (answer, reply) = ask(&mut tables, &plain(), &load("7E25"));
        assert_eq!((answer.outcome, answer.state, reply.as_str()), (0, Some(LOADING), printed));
        assert!(tables.registers[1].is_free());
    }
    // 6.3.8: the same card. It may vend once the session is closed.
    assert_eq!(ask(&mut tables, &plain(), &frame(b"SM?GA", b"N1~")).1, printed.replace("SM!KL00N1~", "SM!GA00"));
    assert!(!usable(&tables.slots[..1], &tables.registers[..2], 1));
    // 6.3.6.4, 6.3.9.4 and 6.3.7.4.
    let (answer, reply) = ask(&mut tables, &plain(), &frame(b"SM?KF", b"PKMC1~"));
    assert_eq!((answer.state, reply.as_str()), (Some(IDLE), "SM!KF00"));
    assert!(usable(&tables.slots[..1], &tables.registers[..2], 1));
    for n in [0, 2, 3, usize::MAX] {
        assert!(!usable(&tables.slots[..1], &tables.registers[..2], n));
    }
    assert_eq!(ask(&mut tables, &plain(), &frame(b"SM?KD", b"N1~")).1, "SM!KD00");
    assert_eq!(ask(&mut tables, &plain(), &frame(b"SM?KD", b"N1~")).1, "SM!KD22");
    let (answer, reply) = ask(&mut tables, &plain(), &frame(b"SM?KX", b"PKMC1~"));
    assert_eq!((answer.state, reply.as_str()), (Some(FREE), "SM!KX00"));
    assert!(tables == Tables::empty(1, 2));
}

#[test]
fn clause_6_3_1_list() {
    let list = frame(b"SM?GL", b"");
    let mut tables = Tables::empty(4, 1);
    assert_eq!(ask(&mut tables, &plain(), &list).1, "SM!GL00");
    // The checksum, which is not printed here; `ask` has compared the frame.
    assert_eq!(frame(b"SM!GL", b"00"), b"SM!GL00A811\r");
    tables.put_slot(1, IDLE, b"KMCnameUpTo40chars", b"8E22231BC992010A", b"");
    assert_eq!(ask(&mut tables, &plain(), &list).1, "SM!GL00PKMCnameUpTo40chars~");
    let mut tables = Tables::empty(4, 1);
    // The paper's three are in the sequence of document 02, N1; the rows are in another.
    tables.put_slot(0, IDLE, b"kmc_name03", b"8E22231BC992010A", b"");
    tables.put_slot(2, LOADING, b"kmc_name02", b"8E22231BC992010A", b"");
    tables.put_slot(3, PENDING, b"KMCname01", b"8E22231BC992010A", b"20130401T120011Z");
    assert_eq!(ask(&mut tables, &plain(), &list).1, "SM!GL00PKMCname01~Pkmc_name02~Pkmc_name03~");
}

#[test]
fn clause_6_3_2_4_query() {
    let mut tables = Tables::empty(1, 22);
    tables.put_slot(0, PENDING, b"KMCname1", b"8E22231BC992010A", b"20130401T120011Z");
    let query = frame(b"SM?KQ", b"PKMCname1~");
    // Printed too with a current fingerprint, which a PENDING row does not hold.
    assert_eq!(
        ask(&mut tables, &plain(), &query).1,
        "SM!KQ00PPENDING~PKMCname1~P~H~P20130401T120011Z~H8E22231BC992010A~"
    );
    tables.put_slot(0, LOADING, b"KMCname1", b"9E1C3307032C6A0F", b"");
    let card = |n: usize| CARD.replace("SGC0000123457", &format!("SGC{n:010}")).replace("TestKMCName", "KMCname1");
    for n in [13, 11, 10, 9, 5, 4, 3, 1] {
        tables.put_card(n - 1, card(n).as_bytes());
    }
    // Printed without the P of LOADING, and with a current TVP, which a LOADING row does not hold.
    assert_eq!(
        ask(&mut tables, &plain(), &query).1,
        "SM!KQ00PLOADING~PKMCname1~P~H9E1C3307032C6A0F~P~H~N1~N3~N4~N5~N9~N10~N11~N13~"
    );
    tables.slots[0].state = IDLE;
    for n in 1..=22 {
        tables.put_card(n - 1, card(n).as_bytes());
    }
    assert_eq!(
        ask(&mut tables, &plain(), &query).1,
        "SM!KQ00PACTIVE~PKMCname1~P~H9E1C3307032C6A0F~P~H~N1~N2~N3~N4~N5~N6~N7~N8~N9~N10~N11~N12~N13~N14~N15~N16~N17~N18~N19~N20~N21~N22~"
    );
    for name in ["", "kmcname1", "KMCname", &"k".repeat(41)] {
        let query = frame(b"SM?KQ", format!("P{name}~").as_bytes());
        assert_eq!(ask(&mut tables, &plain(), &query).1, "SM!KQ27");
    }
}

#[test]
fn clause_6_3_8_4_attributes() {
    let mut tables = Tables::empty(1, 13);
    tables.put_slot(0, IDLE, b"TestKMCName", b"8E22231BC992010A", b"");
    tables.put_card(12, CARD.as_bytes());
    assert_eq!(ask(&mut tables, &plain(), &frame(b"SM?GA", b"N13~")).1, format!("SM!GA00P{CARD}~"));
    // 001 answers 63 to a number out of range; document 01 decides, 21 with status 22.
    for n in ["0", "12", "14", "2147483647"] {
        assert_eq!(ask(&mut tables, &plain(), &frame(b"SM?GA", format!("N{n}~").as_bytes())).1, "SM!GA22");
    }
}

#[test]
fn reset() {
    let mut tables = Tables::empty(4, 1);
    tables.put_slot(0, PENDING, b"A", b"8E22231BC992010A", b"20130401T120011Z");
    tables.put_slot(1, LOADING, b"B", b"8E22231BC992010A", b"");
    tables.put_slot(2, IDLE, b"C", b"8E22231BC992010A", b"");
    let (answer, reply) = ask(&mut tables, &plain(), &frame(b"GL?RS", b""));
    assert_eq!((answer.outcome, answer.state, reply.as_str()), (0, None, "GL!RS00"));
    assert_eq!(tables.slots.map(|slot| slot.state)[..4], [IDLE, IDLE, IDLE, FREE]);
    assert_eq!(tables.slots[0].tvp, [0; 16]);
    assert_eq!(ask(&mut tables, &plain(), &frame(b"GL?RS", b"N1~")).1, "GL!RSEEPKM.08~");
}

/// 003 Appendix A, the response and its keys; their CLM is in small letters. With capitals they are stored, SGN too.
#[test]
fn key_load_file() {
    let module = b"SMID.1:Prism:94000507:20160506T095338Z:F184871DC4F23CB0:1F8C";
    let supplement = requests::supplement(
        b"20160506T122741Z",
        module,
        b"x",
        b"C9A5161F864E1978435A2CEAA611930F37824EDCE6252CEC",
        b"17D819",
    );
    let mut tables = Tables::empty(1, 4);
    tables.put_slot(0, PENDING, b"K0001", b"52204DE9EEFA6EB8", b"20160506T122741Z");
    let response = b"VKLOAD.RESP.1|KMCID.1:Prism:K0001:20160418T121717Z:52204DE9EEFA6EB8:E7BF|SMID.1:Prism:94000507:20160506T095338Z:F184871DC4F23CB0:1F8C|20160506T122741Z|C9A5161F864E1978435A2CEAA611930F37824EDCE6252CEC|71CC";
    assert_eq!(ask(&mut tables, &supplement, &frame(b"SM?KR", &string(response))).1, "SM!KR00PK0001~");
    for key in [
        "KEY.1|A8556C52BA3345996C1551DC|ACT20160425T114321Z;BDT19930101T000000Z;CLM44fa0000;CLU0;DKG02;EXP20170506T215959Z;IUT20160903T102658Z;KCV17D819;KEN255;KRN1;KTC2;SBMFFFF;SGC0000112233;SGNSURELOAD KMC TEST VUDK 1;ULM1000;|849B9665C2BFFB75BF58629A0A057D528888559693DB293A|8F06",
        "KEY.1|49C0495A0A6C26351C44A0CB|ACT20160430T220000Z;BDT19930101T000000Z;CLM44fa0000;CLU0;DKG02;EXP20170506T215959Z;IUT20160903T102658Z;KCV3A3273;KEN255;KRN3;KTC1;SBMFFFF;SGC0000112233;SGNSURELOAD KMC TEST VUDK 1;ULM1000;|DC29A26BBB03D794649E45856B8031B57323A090341CB747|576D",
        "KEY.1|5EE5F985A1186F8A5DD1175F|ACT20140813T000000Z;BDT19930101T000000Z;CLM461c4000;CLU0;DKG02;EXP20170506T215959Z;IUT20160903T102658Z;KCVC33F45;KEN255;KRN1;KTC2;SBM0001;SGC0000123456;SGNACME;ULM10000;|7865DC2B97755CFFA8B5A83C34D1AB8EB6955666F5C78A0B|25EB",
        "KEY.1|6EE438A953F883942F60DDD8|ACT20160502T220000Z;BDT19930101T000000Z;CLM461c4000;CLU0;DKG02;EXP20170506T215959Z;IUT20160903T102658Z;KCV55E354;KEN255;KRN2;KTC1;SBM0001;SGC0000123456;SGNACME;ULM10000;|9918600913859398D044C8D1E86A10EA5ECBF675E861862D|19FA",
    ] {
        let as_printed = frame(b"SM?KL", format!("PK0001~P{key}~").as_bytes());
        assert_eq!(ask(&mut tables, &supplement, &as_printed).1, "SM!KLEEPKM.10~");
        let parts: Vec<&str> = key.split('|').collect();
        let capitals = parts[2].replace("44fa", "44FA").replace("461c", "461C");
        let request = requests::load(b"K0001", parts[1].as_bytes(), capitals.as_bytes(), parts[3].as_bytes());
        let (answer, reply) = ask(&mut tables, &supplement, &request);
        assert_eq!(answer.outcome, 0);
        let (_, rest) = capitals.split_once("SBM").unwrap();
        assert!(rest.contains(";SGN") && reply.ends_with(&format!("SBM{rest}VND0;~")), "{reply}");
    }
    assert!(tables.registers[..4].iter().all(|register| !register.is_free()));
}
