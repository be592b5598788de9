// A run that was refused or failed.

/** The program ended with a status that isn't success (docs/FORMATS.md, "Exit status and standard error"). */
export class Failure extends Error {
  /**
   * @param {number} status
   * @param {string} line what the program wrote to standard error
   */
  constructor(status, line) {
    super(line.trim() || `w4 has ended with status ${status}`);
    this.name = "Failure";
    this.status = status;
  }
}
