/** The words of names, of pictures and of files of one's own. */

export const NAME_WORDS = {
    naming: ['Title, author, source', 'Titel, auteur, bron', 'Titre, auteur, source', 'Название, автор, источник'],
    problemTitle: ['Title', 'Titel', 'Titre', 'Название'],
    author: ['Author', 'Auteur', 'Auteur', 'Автор'],
    source: ['Source', 'Bron', 'Source', 'Источник'],
    date: ['Date', 'Datum', 'Date', 'Дата'],
    nameBefore: [
        'Give it the name of the problem before: #',
        'Geef het de naam van het vorige probleem: #',
        'Lui donner le nom du problème précédent : #',
        'Дать имя предыдущей композиции: #',
    ],
    laterPosition: ['Later position: #', 'Latere stand: #', 'Position ultérieure : #', 'Более поздняя позиция: #'],
    taskWin: [
        '# to play and win in #',
        '# begint en wint in # {zet|zetten}',
        '# jouent et gagnent en # temps',
        '# начинают и выигрывают в # {ход|хода|ходов}',
    ],
    editCard: ['Edit problem #', 'Wijzig probleem #', 'Modifier le problème #', 'Изменить композицию #'],
    cardNumber: ['Number in the list', 'Nummer in de lijst', 'Numéro dans la liste', 'Номер в списке'],
    cardPosition: [
        'Give it the position on the board',
        'Geef het de stand op het bord',
        'Lui donner la position du damier',
        'Дать ему позицию с доски',
    ],
    cardKeep: ['Keep the changes', 'Wijzigingen bewaren', 'Garder les modifications', 'Сохранить изменения'],
    cardDelete: ['Delete from the list', 'Uit de lijst verwijderen', 'Retirer de la liste', 'Удалить из списка'],
    cancel: ['Cancel', 'Annuleren', 'Annuler', 'Отмена'],
    bringOneBack: [
        'Undo: bring # {problem|problems} back',
        'Ongedaan maken: haal # {probleem|problemen} terug',
        'Annuler : rétablir # {problème|problèmes}',
        'Отменить: вернуть # {композицию|композиции|композиций}',
    ],
    fileWay: ['A file', 'Een bestand', 'Un fichier', 'Файл'],
    fileAdds: ['is added to the list', 'wordt toegevoegd', 's’ajoute à la liste', 'добавляется к списку'],
    fileReplaces: ['replaces the list', 'vervangt de lijst', 'remplace la liste', 'заменяет список'],
    depthAll: ['all variations', 'alle varianten', 'toutes les variantes', 'все варианты'],
    depthLongest: [
        'replies that hold out longest',
        'antwoorden die het langst standhouden',
        'réponses qui tiennent le plus longtemps',
        'ответы с самым долгим сопротивлением',
    ],
    depthMain: ['main line', 'hoofdvariant', 'variante principale', 'главный вариант'],
    toEnd: ['To the end', 'Naar het einde', 'À la fin', 'К концу'],
    picture: ['Picture of the diagram', 'Plaatje van het diagram', 'Image du diagramme', 'Изображение диаграммы'],
    pictureNames: ['Title and task', 'Titel en opgave', 'Titre et énoncé', 'Название и задание'],
    pictureSolution: ['Main line', 'Hoofdvariant', 'Variante principale', 'Главный вариант'],
    pngCopy: ['Copy as PNG', 'Kopieer als PNG', 'Copier en PNG', 'Копировать PNG'],
    pngSave: ['Save as PNG', 'Bewaar als PNG', 'Enregistrer en PNG', 'Сохранить PNG'],
    svgCopy: ['Copy as SVG', 'Kopieer als SVG', 'Copier en SVG', 'Копировать SVG'],
    svgSave: ['Save as SVG', 'Bewaar als SVG', 'Enregistrer en SVG', 'Сохранить SVG'],
    answerOfStart: [
        'The verdict is that of the starting position, #',
        'Het oordeel is dat van de uitgangsstand, #',
        'Le verdict est celui de la position de départ, #',
        'Вердикт относится к исходной позиции, #',
    ],
    solveHere: [
        'Solve the position on the board',
        'Los de stand op het bord op',
        'Résoudre la position du damier',
        'Решить позицию на доске',
    ],
    paper: ['Paper', 'Papier', 'Papier', 'Печать'],
    heading: ['Heading', 'Kop', 'En-tête', 'Заголовок'],
    paperHint: [
        'Stands above what you print, and above the saved page. The solution is printed with the replies that hold out '
            + 'longest, up to 15 lines.',
        'Staat boven wat u afdrukt, en boven de bewaarde pagina. De oplossing wordt afgedrukt met de antwoorden die '
            + 'het langst standhouden, tot 15 regels.',
        'Figure au-dessus de ce que vous imprimez et de la page enregistrée. La solution est imprimée avec les '
            + 'réponses qui tiennent le plus longtemps, jusqu’à 15 lignes.',
        'Стоит над тем, что вы печатаете, и над сохранённой страницей. Решение печатается с ответами самого долгого '
            + 'сопротивления, до 15 строк.',
    ],
    paperBound: [
        'Solution, with the replies that hold out longest: the first # of # lines.',
        'Oplossing, met de antwoorden die het langst standhouden: de eerste # van # regels.',
        'Solution, avec les réponses qui tiennent le plus longtemps : les # premières lignes sur #.',
        'Решение, с ответами самого долгого сопротивления: первые # из # строк.',
    ],
    paperAll: [
        'Solution, with the replies that hold out longest: # {line|lines}.',
        'Oplossing, met de antwoorden die het langst standhouden: # {regel|regels}.',
        'Solution, avec les réponses qui tiennent le plus longtemps : # {ligne|lignes}.',
        'Решение, с ответами самого долгого сопротивления: # {строка|строки|строк}.',
    ],
    print: ['Print', 'Afdrukken', 'Imprimer', 'Печатать'],
    goOn: ['Go on', 'Ga door', 'Continuer', 'Продолжить'],
    ownSave: ['Save to my file', 'Bewaar in mijn bestand', 'Enregistrer dans mon fichier', 'Сохранить в мой файл'],
    ownOpen: ['Open my file', 'Open mijn bestand', 'Ouvrir mon fichier', 'Открыть мой файл'],
    ownOther: ['Another file', 'Een ander bestand', 'Un autre fichier', 'Другой файл'],
    savesShown: [
        'Saves what is shown: # of # problems.',
        'Bewaart wat getoond wordt: # van # problemen.',
        'Enregistre ce qui est affiché : # problèmes sur #.',
        'Сохраняется показанное: # из # композиций.',
    ],
    moveHint: [
        '… edits, moves or deletes a problem. Keys on a card: Alt with up or down moves it, Delete deletes it.',
        '… wijzigt, verplaatst of verwijdert een probleem. Toetsen op een kaart: Alt met omhoog of omlaag verplaatst, '
            + 'Delete verwijdert.',
        '… modifie, déplace ou retire un problème. Clavier sur une carte : Alt avec haut ou bas déplace, Suppr retire.',
        '… изменяет, передвигает или удаляет композицию. Клавиши на карточке: Alt со стрелкой вверх или вниз '
            + 'передвигает, Delete удаляет.',
    ],
};
