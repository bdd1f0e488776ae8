/* The outcome of a collection, told to people and to programs. */
#include "report.h"

#include "json.h"
#include "names.h"
#include "say.h"

#include <stdio.h>
#include <string.h>

struct report report;

const char *report_standing(void) {
    static char text[4608];
    static const char *const acknowledgement[] = {
        [NOT_SENT] = "; the drive was not told that it may forget its data",
        [DONE] = "; page 08h is acknowledged",
        [REFUSED_BY_DRIVE] = "; the drive refused the acknowledgement and may still hold its data",
        [NOT_KNOWN] = "; whether the drive took the acknowledgement is not known",
    };
    if (!report.page)
        return "";
    if (!report.file)
        return "nothing was saved";
    snprintf(text, sizeof text, "%.4096s %s%s", report.file, report.to_standard_output ? "has the whole page" : "is saved and whole",
             report.page == 8 ? acknowledgement[report.acknowledgement] : "");
    return text;
}

static const char *plural(uint64_t count) { return count == 1 ? "" : "s"; }

/* Where the copy is, and from whom. */
static void put_saved(char *text, size_t room) {
    const struct drive *drive = report.drive;
    char saved[4160] = "nothing saved";
    if (report.file)
        snprintf(saved, sizeof saved, "%zu bytes saved to %.4096s", report.bytes, report.file);
    snprintf(text, room, "%s from %.1024s%s%s", saved, drive_name(drive), drive->path ? ", serial " : "", drive->path ? drive->serial : "");
}

static void put_refusal(char *text, size_t room) {
    uint16_t status = report.drive->refusal;
    text[0] = '\0';
    if (status)
        snprintf(text, room, "; %s was refused with status %04Xh (%s)",
                 report.acknowledgement == REFUSED_BY_DRIVE ? "the acknowledgement" : "a command", status, status_name(status));
}

/* What the drive was told of page 08h, where that is not plain. */
static void put_acknowledgement(char *text, size_t room) {
    text[0] = '\0';
    if (report.acknowledgement == REFUSED_BY_DRIVE)
        snprintf(text, room, ": the file is whole, and the drive may still hold its data");
    else if (report.newer)
        snprintf(text, room, "; a newer capture was acknowledged unread");
    else if (report.file && report.page == 8 && report.acknowledgement == NOT_SENT && report.unread && !report.keeps)
        snprintf(text, room, "; page 08h is not acknowledged: it holds %u block%s above area %u (--acknowledge lets the drive forget them)",
                 (unsigned)report.unread, plural(report.unread), report.area);
    else if (report.file && report.page == 8 && report.acknowledgement == NOT_SENT)
        snprintf(text, room, "; page 08h is not acknowledged");
}

void report_line(void) {
    char why[256] = "", saved[5632], failed[128] = "", refusal[128], acknowledgement[160], entered[4160] = "";
    if (report.fault.field)
        snprintf(why, sizeof why, "%s; ", fault_text(&report.fault));
    else if (report.out_of_reach.area)
        snprintf(why, sizeof why, "%s; ", out_of_reach_text(&report.out_of_reach));
    put_saved(saved, sizeof saved);
    put_refusal(refusal, sizeof refusal);
    put_acknowledgement(acknowledgement, sizeof acknowledgement);
    if (report.failed)
        snprintf(failed, sizeof failed, "; %u attempt%s failed because the page changed in between", (unsigned)report.failed,
                 plural(report.failed));
    if (report.entered)
        snprintf(entered, sizeof entered, "; entered into %.4096s", report.sheet);
    say("ending %u (%s): %s%u attempt%s, %llu command%s, %s%s%s%s%s", report.ending, meaning(report.ending), why, (unsigned)report.attempts,
        plural(report.attempts), (unsigned long long)report.commands, plural(report.commands), saved, failed, refusal, acknowledgement,
        entered);
}

static void print_member(const char *name, const char *text) {
    printf(", \"%s\": ", name);
    json_string(text);
}

static void print_time(void) {
    char text[32];
    struct tm utc;
    strftime(text, sizeof text, "%Y-%m-%dT%H:%M:%SZ", gmtime_r(&report.began, &utc));
    print_member("time", text);
}

static void print_drive(const struct drive *drive) {
    print_member("device", report.device);
    printf(", \"embedded\": %s, \"drive\": ", json_flag(!report.device));
    if (!drive) {
        fputs("null", stdout);
        return;
    }
    printf("{\"oui\": \"%06X\"", (unsigned)drive->oui);
    print_member("serial", drive->serial);
    print_member("model", drive->model);
    print_member("firmware", drive->firmware);
    printf(", \"extended_data\": %s, \"telemetry\": %s, \"da4s\": %s, \"etdas\": %s, \"mcdas\": %s}",
           json_flag(drive->caps & BUMBAZEEL_EXTENDED), json_flag(drive->caps & BUMBAZEEL_TELEMETRY),
           json_flag(drive->caps & BUMBAZEEL_DA4S), json_flag(drive->caps & BUMBAZEEL_ETDAS), json_flag(drive->caps & BUMBAZEEL_MCDAS));
}

static void print_run(void) {
    static const char *const acknowledgement[] = {
        [NOT_SENT] = "not sent", [DONE] = "done", [REFUSED_BY_DRIVE] = "refused", [NOT_KNOWN] = "not known"};
    uint16_t refusal = report.drive ? report.drive->refusal : 0;
    printf(", \"page\": \"%02Xh\", \"area\": %u, \"attempts\": %u, \"failed_attempts\": %u, \"commands\": %llu", report.page, report.area,
           (unsigned)report.attempts, (unsigned)report.failed, (unsigned long long)report.commands);
    printf(", \"acknowledgement\": \"%s\", \"newer_unread\": %s, \"unread_blocks\": %u", acknowledgement[report.acknowledgement],
           json_flag(report.newer), (unsigned)report.unread);
    printf(", \"refusal_status\": \"%04Xh\"", refusal);
    print_member("refusal_name", refusal ? status_name(refusal) : NULL);
}

static void print_sheet(void) {
    printf(", \"sheet\": ");
    if (!report.sheet) {
        fputs("null", stdout);
        return;
    }
    fputs("{\"file\": ", stdout);
    json_string(report.sheet);
    printf(", \"entered\": %s}", json_flag(report.entered));
}

void report_json(int status, const char *error) {
    printf("{\"status\": %d, \"ending\": ", status);
    if (report.ended)
        printf("%u", report.ending);
    else
        fputs("null", stdout);
    print_member("meaning", report.ended ? meaning(report.ending) : NULL);
    fault_json(&report.fault);
    out_of_reach_json(&report.out_of_reach);
    print_member("error", error);
    print_time();
    print_drive(report.drive);
    print_run();
    print_member("file", report.file);
    printf(", \"bytes\": %zu", report.bytes);
    print_member("sha256", report.sha256[0] ? report.sha256 : NULL);
    print_sheet();
    puts("}");
    fflush(stdout);
}
