// Who may use a file: Windows' lists of rights, as far as Linux's modes say the same.
#include "layer.h"
#include <aclapi.h>

// The user that the program runs as; NULL where Windows doesn't tell.
static PSID user(void)
{
    static union { TOKEN_USER told; char room[256]; } user;
    DWORD n;
    if (user.told.User.Sid == NULL && !GetTokenInformation(GetCurrentProcessToken(), TokenUser, &user, sizeof user, &n))
        user.told.User.Sid = NULL;
    return user.told.User.Sid;
}

// The rights of a new file for its user alone, mode 0600: a list of one entry, without a folder's. Administrators may still take it over.
SECURITY_ATTRIBUTES *for_user_alone(void)
{
    static SECURITY_DESCRIPTOR rights;
    static SECURITY_ATTRIBUTES told = {sizeof told, &rights, FALSE};
    static union { ACL list; char room[256]; } one;
    if (user() == NULL || !InitializeAcl(&one.list, sizeof one, ACL_REVISION) || !AddAccessAllowedAce(&one.list, ACL_REVISION, FILE_ALL_ACCESS, user())
        || !InitializeSecurityDescriptor(&rights, SECURITY_DESCRIPTOR_REVISION) || !SetSecurityDescriptorDacl(&rights, TRUE, &one.list, FALSE)
        || !SetSecurityDescriptorControl(&rights, SE_DACL_PROTECTED, SE_DACL_PROTECTED))
        return NULL;
    return &told;
}

// what lets others write a file, or add to a folder; and what lets them take away what is in a folder, or give themselves leave to
enum { TAKES = FILE_DELETE_CHILD | WRITE_DAC | WRITE_OWNER | GENERIC_ALL, WRITES = FILE_WRITE_DATA | FILE_APPEND_DATA | GENERIC_WRITE | TAKES };

// Its user, also as the owner of whatever it is, the system, and administrators, who may take any file over, are no others.
static bool is_other(PSID who)
{
    return user() == NULL || !(EqualSid(who, user()) || IsWellKnownSid(who, WinCreatorOwnerRightsSid) || IsWellKnownSid(who, WinLocalSystemSid)
        || IsWellKnownSid(who, WinBuiltinAdministratorsSid));
}

// The mode of an open file, and the number of its user: 0 where that is none of the others. Without leave to look, it may be anybody's. A
// volume without rights (FAT) is everybody's, as Windows says; it tells of nobody. A folder is sticky where others may add and not take.
unsigned mode_of(HANDLE handle, bool is_folder, unsigned *owner)
{
    PSECURITY_DESCRIPTOR rights = NULL;
    PACL list = NULL;
    PSID whose = NULL;
    DWORD asked = OWNER_SECURITY_INFORMATION | DACL_SECURITY_INFORMATION;
    DWORD error = GetSecurityInfo(handle, SE_FILE_OBJECT, asked, &whose, NULL, &list, NULL, &rights);
    bool has_rights = error == ERROR_SUCCESS && whose != NULL && !IsWellKnownSid(whose, WinWorldSid);
    *owner = has_rights && is_other(whose) ? *GetSidSubAuthority(whose, *GetSidSubAuthorityCount(whose) - 1) : 0;
    DWORD may = error == ERROR_ACCESS_DENIED || (has_rights && list == NULL) ? GENERIC_ALL : has_rights ? 0 : FILE_READ_DATA;
    for (DWORD i = 0; has_rights && list != NULL && i < list->AceCount; i++) {
        ACCESS_ALLOWED_ACE *entry;
        if (GetAce(list, i, (void **)&entry) && entry->Header.AceType != ACCESS_DENIED_ACE_TYPE && !(entry->Header.AceFlags & INHERIT_ONLY_ACE)
            && is_other((PSID)&entry->SidStart))
            may |= entry->Mask;
    }
    LocalFree(rights);
    bool reads = may & (FILE_READ_DATA | GENERIC_READ | GENERIC_ALL), writes = may & (WRITES | (is_folder ? 0 : DELETE));
    return (is_folder ? 0700 : 0600) | (reads ? 044 : 0) | (writes ? 022 : 0) | (is_folder && !(may & TAKES) ? 01000 : 0);
}

// fchmod, of a new file of its user's alone: where others may use the one whose place it takes, it gets its folder's rights.
ASKED(int, fchmod)(int number, unsigned mode)
{
    OPENED(it, number);
    ACL none;
    FILE_BASIC_INFO told;
    unsigned owner;
    if ((mode & 077) != 0 && (mode_of(it->handle, false, &owner) & 077) == 0 && InitializeAcl(&none, sizeof none, ACL_REVISION)) {
        DWORD error = SetSecurityInfo(it->handle, SE_FILE_OBJECT, DACL_SECURITY_INFORMATION | UNPROTECTED_DACL_SECURITY_INFORMATION, NULL, NULL, &none, NULL);
        if (error != ERROR_SUCCESS)
            return fail_of(error);
    }
    if ((mode & 0222) != 0)
        return 0;
    if (!GetFileInformationByHandleEx(it->handle, FileBasicInfo, &told, sizeof told))
        return failed();
    told.FileAttributes |= FILE_ATTRIBUTE_READONLY;
    return SetFileInformationByHandle(it->handle, FileBasicInfo, &told, sizeof told) ? 0 : failed();
}

// chmod, which is asked for a socket alone: who may connect to a place of TCP is said by that.
ASKED(int, chmod)(const char *, unsigned) { return 0; }

// lchown: a file that takes another one's place is its maker's.
ASKED(int, lchown)(const char *, unsigned, unsigned) { return fail(L_EPERM); }
