//! The reader of JSON that the program's tests use lets nothing through that isn't JSON.

use harptimber_tests::program::json::Json;

#[test]
fn values() {
    let lists = "\"a\" : [ ] , \"b\":[0,10,{}]";
    let string = "\"\\u00e9\\ud834\\udd1e\\\"\\\\\\/\\n\\t \u{FFFD}\"";
    let text = &format!(" {{{lists} ,\"c\":{string}}} \n");
    let json = Json::parse(text).expect("an object");
    assert_eq!(json.keys(), ["a", "b", "c"]);
    assert_eq!(json["a"], Json::List(Vec::new()));
    let numbers = [Json::Number(0), Json::Number(10), Json::Object(Vec::new())];
    assert_eq!(json["b"].list(), numbers);
    assert_eq!(json["c"].text(), "\u{E9}\u{1D11E}\"\\/\n\t \u{FFFD}");
    let literals = Json::parse("[true,false,null]").expect("a list");
    let expected = [Json::Bool(true), Json::Bool(false), Json::Null];
    assert_eq!(literals.list(), expected);
}

#[test]
fn no_values() {
    let wrong = [
        "",
        "{",
        "}",
        "{}{}",
        "{},",
        "[1,]",
        "[,1]",
        "[1 2]",
        "{\"a\":1,}",
        "{\"a\" 1}",
        "{a:1}",
        "{\"a\":}",
        "{\"a\":1,\"a\":2}",
        "'a'",
        "\"a",
        "\"\n\"",
        "\"\u{1F}\"",
        "\"\\x41\"",
        "\"\\u12\"",
        "\"\\u+123\"",
        "\"\\ud834\"",
        "\"\\ud834\\u0041\"",
        "\"\\udd1e\"",
        "01",
        "-1",
        "1.5",
        "1e3",
        "0x1",
        "+1",
        "18446744073709551616",
        "True",
        "nul",
        "NaN",
    ];
    for text in wrong {
        assert!(Json::parse(text).is_err(), "'{text}' was taken");
    }
}
