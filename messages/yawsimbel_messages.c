/* What each number that a function of yawsimbel.h returns means, in a line of English and a line of Japanese; and the version.
 *
 * Compile it with your program: it stands beside the archive, in which all is proved, and nothing in the archive calls it. It needs no library. This file
 * is UTF-8, and so are the Japanese lines: gcc and clang take them as they stand, another compiler may have to be told (MSVC: /utf-8).
 */
#include "yawsimbel.h"

struct line {
    uint16_t number;
    const char *english, *japanese;
};

static const struct line lines[] = {
    {YWS_OK, "done", "正常に終わりました"},
    {YWS_ERR_LENGTH, "the code is not 16 or 8 characters long, or the run is not whole codes",
     "コードの桁数が正しくありません（用法16桁、補足用法8桁、日付指定の並びは8桁の倍数）"},
    {YWS_ERR_FIRST, "the 1st character of the code is unknown", "コードの1桁目が不明です"},
    {YWS_ERR_DETAIL, "the 2nd character of the usage code, how it is used, is unknown", "用法コードの2桁目（用法詳細区分）が不明です"},
    {YWS_ERR_TIMING, "the 3rd character of the usage code, its timing, is unknown", "用法コードの3桁目（タイミング指定区分）が不明です"},
    {YWS_ERR_CHARACTER, "the code has a character that may not stand there", "コードのこの桁に使えない文字があります"},
    {YWS_ERR_UNUSED, "an unused character of the code is not 0", "コードの未使用の桁が0ではありません"},
    {YWS_ERR_COUNT, "the times a day differ from the occasions that the code names", "1日の回数と指定された時点の数が一致しません"},
    {YWS_ERR_RULE, "no such event and condition, count or day, an empty week, or 15 h where it may not stand",
     "該当するイベントと附帯条件の組・回数・日付がないか、曜日の指定がないか、15時を指定できない用法です"},
    {YWS_ERR_RISING, "the hours or days do not rise", "時刻または日付が昇順ではありません"},
    {YWS_ERR_ISSUE_MONTH, "the issue month is not 1 to 12", "交付月が1から12までではありません"},
    {YWS_ERR_DAY_SET, "no date codes can name this set of days", "この日付の組は日付指定コードで表せません"},
    {YWS_ERR_RUN, "the date codes do not follow each other, or there are none", "日付指定コードの並びが正しくないか、コードがありません"},
    {YWS_ERR_TOO_LONG, "the file is longer than 16384 bytes", "ファイルが16384バイトを超えています"},
    {YWS_ERR_FRAME, "the file is cut short, or has a byte that no sheet has", "ファイルが途中で切れているか、使えないバイトがあります"},
    {YWS_ERR_VERSION, "the first line is not JAHIS5", "先頭行がJAHIS5ではありません"},
    {YWS_ERR_UNKNOWN, "there is no such record number", "該当するレコード番号がありません"},
    {YWS_ERR_ORDER, "the record is out of order", "レコードの順序が正しくありません"},
    {YWS_ERR_FIELDS, "the record has too few or too many fields", "レコードの項目数が正しくありません"},
    {YWS_ERR_TEXT, "the text has bad characters or a space at an end, or is too long", "文字列に使えない文字があるか、前後に空白があるか、長すぎます"},
    {YWS_ERR_VALUE, "no such number, date, amount, site or drug code may stand here, or the date is outside its era",
     "数値・日付・用量・部位コード・薬品コードのいずれかが正しくないか、日付が年号の期間外です"},
    {YWS_ERR_PRESENT, "a required field is empty, or one that must be empty is filled", "必須の項目が空か、空でなければならない項目に値があります"},
    {YWS_ERR_CODE, "the usage or supplementary code is refused", "用法コードまたは補足用法コードが正しくありません"},
    {YWS_ERR_COUNTER, "the RP number or the serial is not one that may follow here", "RP番号または連番が順序どおりではありません"},
    {YWS_ERR_SCHEDULE, "the supplement does not go with those before it in its RP", "補足用法が同じRPのそれまでの補足用法と両立しません"},
    {YWS_ERR_MISSING, "a needed record is missing", "必須のレコードがありません"},
    {YWS_ERR_ROOM, "the buffer has no room", "バッファの空きが足りません"},
    {YWS_ERR_RECORD, "the record would be refused when it is read", "このレコードは読み取り時に拒否されます"},
    {YWS_ERR_NO_CODE, "no code reads as these numbers", "この数値の組に当たるコードはありません"},
    {YWS_ERR_DOSES, "the RP fixes no doses for its days: no usage code, as needed, about so often or a range, or so often in a period",
     "RPの内容から日ごとの回数が決まりません（用法コードなし、頓用、回数が程度・範囲、期間内回数指定）"},
    {YWS_ERR_CALENDAR, "the days are not 1 to 366, or the start is no day from 1868 to 2099 or is before the issue date",
     "日数が1から366までではないか、開始日が1868年から2099年までの日付でないか、交付日より前です"},
    {YWS_ERR_NO_RP, "the sheet has no RP of this number", "処方箋にこの番号のRPがありません"},
    {YWS_END, "no record is left", "レコードはこれで終わりです"},
};

static const struct line *line_of(uint16_t number) {
    static const struct line none = {0, "", ""};
    for (unsigned i = 0; i < sizeof lines / sizeof lines[0]; i++)
        if (lines[i].number == number) return &lines[i];
    return &none;
}

const char *yws_message(uint16_t number) { return line_of(number)->english; }

const char *yws_message_ja(uint16_t number) { return line_of(number)->japanese; }

const char *yws_version(void) { return YWS_VERSION; }
